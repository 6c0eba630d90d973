"""The envelope of mail that a neighbour brings: its first line says from which neighbour the mail came, which is true
whatever the neighbour wrote. The local mailer gets this line alone, because Exim takes the next one for the end of the
headers. Its user is the whole path that older lines say. Mail that goes on to another system keeps older lines as `>From`,
as RFC 976 has it. The users in these lines are paths of plain words, in which no mailer finds another address. Mail of a
user of this site has one such line, of that user. Each line that is the first has a date, without which Exim knows no line. Mail that
goes on with a blank, as no header does, gets an empty line before that: Exim would take it for a part of the line, and a second one
behind it for the envelope."""
import contextlib
import itertools
import os
import time
from collections.abc import Callable, Iterator, Sequence

from . import clock, files
from .bundle import MOST_OF_A_JOB
from .errors import Refusal
from .jobs import Delivered, Job
from .texts import is_name

_MOST = 1 << 16  # bytes of these lines
_NOBODY = "uucp"  # the user of mail that a machine handed on
_BEGINS = tuple(quote + b"From" + blank for quote in (b"", b">") for blank in (b" ", b"\t", b"\v", b"\f", b"\r"))  # (what Exim takes for a blank)
_OF_WORDS = frozenset("ABCDEFGHIJKLMNOPQRSTUVWXYZabcdefghijklmnopqrstuvwxyz0123456789._+=&'~#^-")
_OF_LINES = _OF_WORDS | frozenset(" !:")
_OF_ADDRESSES = _OF_WORDS | frozenset("!@%/")
_DATE = r" *(?:[A-Za-z]{3} +)?(?:[A-Za-z]{3} +[0-9]?[0-9]|[0-9]?[0-9] +[A-Za-z]{3} +[0-9]{2}(?:[0-9]{2})?) +[0-9]?[0-9]:[0-9]"  # as Exim takes one


def plain_user(user: str) -> str:
    """A user as a path of plain words. `joe@domain` is `domain!joe`, as RFC 976 has it, and any other sign, by which a mailer
    may find another address, a program, a file or an option, is `_`."""
    path, _, last = user.rpartition("!")
    local, _, domain = last.rpartition("@")
    words = (it.lstrip("-") for it in (*path.split("!"), domain, local))
    return "!".join(_plain(it, _OF_WORDS) for it in words if it)


def _plain_address(user: str) -> str:
    """A user as a mailer of this site wrote it, if no mailer finds another address in that, and else as such a path."""
    words = user.replace("@", "!").split("!")
    is_plain = _OF_ADDRESSES.issuperset(user) and user.count("@") <= 1 and not any(it.startswith(("-", "/")) for it in words)
    return user if is_plain else plain_user(user)


def _plain(text: str, kept: frozenset[str]) -> str:
    return "".join(sign if sign in kept else "_" for sign in text)


@contextlib.contextmanager
def signed(job: Delivered, own: str, folder: str) -> Iterator[int]:
    """The open file of mail with such a line and no other, or the file itself if it has that. It is the same if the mail is
    delivered again. Mail that is larger than a job is on the disk of a folder, and has no name there."""
    lines, length = _lines_of(job.content)
    site, user = job.sender or own, plain_user(job.user.removeprefix(f"{job.sender}!")) or _NOBODY
    if not job.sender:
        # (No other site had it before, and a mailer may take the user of the last line.)
        lines = [it for it in lines[:1] if it.startswith(f"From {user} ") and _is_signed(it, own)]
    path = _path_behind(user, site, lines)
    if lines and _is_signed(lines[0], site):
        line = _dated(f"From {path} {_parted(lines[0])[1]}", job.moment)
    else:
        line = _line(job.moment, path, site)
    if _text([line]) == os.pread(job.content, length, 0) and not _goes_on(job.content, length):
        yield job.content
        return
    with _rewritten([line], length, job.content, folder) as whole:
        yield whole


def handed_on(job: Delivered, own: str, folder: str) -> contextlib.AbstractContextManager[int]:
    """The same for mail that goes on to the next site, to which it comes from this one. It keeps the date with which it came, so it has the
    same bytes if it is handed on again. (The program writes such a line before what it hands on itself.)"""
    lines, length = _lines_of(job.content)
    return _rewritten([_line(job.moment, plain_user(job.user), own, _date_in(lines)), *lines], length, job.content, folder)


def make_plain(content: int, job: Job, own: str, folder: str) -> None:
    """Makes the lines plain in the open file of mail that goes to a system which believes them as they are. A neighbour's mail may have been
    handed on or moved without a delivery here, so it gets one line of its user, with the whole path: Exim there takes the next one for the
    end of the headers. A mailer's own lines keep plain addresses."""
    lines, length = _lines_of(content, plain_user if job.sender else _plain_address)
    user, moment = plain_user(job.user) or _NOBODY, f"{job.day} {job.hour}"
    is_envelope = bool(lines) and os.pread(content, 1, 0) != b">"
    if is_envelope and (not job.sender or _is_of(lines[0], user, own)):
        lines[0] = _dated(lines[0], moment)
    elif job.sender or lines:
        lines.insert(0, _line(moment, user, own))
    if job.sender:
        its = plain_user(job.user.removeprefix(f"{job.sender}!")) or _NOBODY
        lines = [f"From {job.sender}!{_path_behind(its, job.sender, lines[1:])} {_parted(lines[0])[1]}"]
    if _text(lines) != os.pread(content, length, 0) or _goes_on(content, length):
        with _rewritten(lines, length, content, folder) as whole:
            os.ftruncate(content, 0)
            os.lseek(content, 0, os.SEEK_SET)
            files.copy_all(whole, content)


def _date_in(lines: Sequence[str]) -> str:
    """The first date in these lines, or nothing."""
    import re  # (takes long to load)

    dates = (re.match(r" ?((?:[A-Z][a-z]{2} ){2}[ 0-3]?[0-9] (?:[0-9]{2}:){2}[0-9]{2} [0-9]{4})(?: remote from |\Z)", _parted(it)[1]) for it in lines)
    return next((it[1] for it in dates if it), "")


@contextlib.contextmanager
def _rewritten(lines: Sequence[str], length: int, content: int, folder: str) -> Iterator[int]:
    """The open file of these lines, and then the mail behind its own ones."""
    is_large = os.fstat(content).st_size > MOST_OF_A_JOB
    with files.nameless_file(folder) if is_large else files.memory_file(b"") as whole:
        files.write_all(whole, _text(lines) + (b"\n" if _goes_on(content, length) else b""))
        files.copy_all(content, whole, length)
        os.lseek(whole, 0, os.SEEK_SET)
        yield whole


def _goes_on(content: int, length: int) -> bool:
    """Whether what is behind these lines begins with a blank."""
    return os.pread(content, 1, length) in (b" ", b"\t")


def _lines_of(content: int, plain: Callable[[str], str] = plain_user) -> tuple[list[str], int]:
    """The lines with which mail begins, with users that this makes plain, and how many bytes they have. (sendmail's rmail takes the
    user of the last one, so all count.)"""
    head = os.pread(content, _MOST, 0)
    lines = list(itertools.takewhile(lambda it: it.startswith(_BEGINS), head.split(b"\n")))
    length = min(sum(len(it) + 1 for it in lines), len(head))
    if len(head) == _MOST and length > _MOST - len(_BEGINS[-1]):
        raise Refusal(f"the lines `From ..` before the message have more than {_MOST >> 10} KiB")
    return [_plain_line(it.decode(errors="replace"), plain) for it in lines], length


def _plain_line(line: str, plain: Callable[[str], str]) -> str:
    user, _, rest = line.removeprefix(">")[len("From ") :].partition(" ")
    return f"From {plain(user)} {_plain(rest, _OF_LINES)}"


def _path_behind(user: str, site: str, lines: Sequence[str]) -> str:
    """The path to the sender of mail behind the system from which it came, which may have written the first of these lines. (Another UUCP may
    give the mail of all to `uucp`. Otherwise the job's user is better known than older lines.)"""
    if lines and _is_signed(lines[0], site):
        return _path(_parted(lines[0])[0], lines[1:])
    return _path(user, lines) if user == _NOBODY else user


def _path(user: str, older: Sequence[str]) -> str:
    """The path to the sender of mail with the user of a line and the lines before it. As RFC 976 has it, each line that says
    from which system the mail came adds that system, and the oldest of them names the user."""
    systems = [(system, _parted(it)[0]) for it in older if (system := _system_of(it))]
    last = systems[-1][1] if systems else user
    if last == _NOBODY:
        last = next((its for it in reversed(older) if (its := _parted(it)[0])), last)
    path = "!".join((*(system for system, _ in systems), last))
    return user if f"!{user}".endswith(f"!{path}") else path


def _parted(line: str) -> tuple[str, str]:
    """The user of a line, and the rest."""
    user, _, rest = line.removeprefix("From ").partition(" ")
    return user, rest


def _system_of(line: str) -> str:
    """From which system a line says that the mail came, or nothing."""
    system = line.rpartition(" ")[2]
    return system if is_name(system) and _is_signed(line, system) else ""


def _text(lines: Sequence[str]) -> bytes:
    return "\n>".join((*lines, "")).removesuffix(">").encode()


def _is_signed(line: str, neighbour: str) -> bool:
    """Whether a line says that the mail came from a user of the neighbour. (Of two systems rmail takes the first. It takes
    the first word for the user.)"""
    user, blank, rest = line.removeprefix("From ").partition(" ")
    return user != "" and line.count("remote from ") == 1 and (blank + rest).endswith(f" remote from {neighbour}")


def _dated(line: str, moment: str) -> str:
    """A line with a date, which is this moment if it has none. Exim would take a line without one for text, and the mail for that of its caller."""
    import re  # (loaded late, since only mail needs it)

    user, rest = _parted(line)
    return line if re.match(_DATE, rest) else _line(moment, user, _system_of(line))


def _is_of(line: str, user: str, site: str) -> bool:
    """Whether a line is of this user, and names no other system than the site."""
    return _parted(line)[0] == user and ("remote from " not in line or _is_signed(line, site))


def _line(moment: str, user: str, site: str, date: str = "") -> str:
    date = date or time.strftime("%a %b %e %H:%M:%S %Y", time.gmtime(clock.seconds("UTC0", moment)))
    return f"From {user} {date}" + (f" remote from {site}" if site else "")
