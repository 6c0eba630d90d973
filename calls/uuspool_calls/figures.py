"""What an operator watches: what waits for each neighbour and for this site, how calls went, and what room is left."""
import contextlib
import os
from collections.abc import Callable

from . import clock, files
from .contacts import Contact, Contacts
from .errors import LATER, Failure
from .processes import Ended
from .session import acting_as
from .settings import Settings
from .site import ROUND
from .texts import is_name, one_line
from .values import NamedTuple

_UNTOLD = ".untold"
_PAGE = 4096  # bytes
_FREE = slice(36, 40)  # where the head of an SQLite database has the number of its free pages
_NEARLY = 4, 5  # of the limit: soon nothing may be added
_SPARE = 20  # a part of the limit stays free of files in pieces: one of so many
_FULL, _SHARED = 4076, 2030  # bytes that are kept in a page, and those of the largest row that shares one
_ROW, _BESIDES = 8, 100  # bytes of a row, and of a job beside its words
_Ask = Callable[..., Ended]  # a line of the program, as the spool's user
_ODD = "uuspool printed something else than systems: try again, and see what else runs as its user"


class Neighbour(NamedTuple):
    """A system. Times are seconds since 1970, 0 if there is none."""

    name: str
    jobs: int = 0  # that wait for it
    size: int = 0  # their bytes
    oldest: int = 0  # when the oldest was queued
    failed: int = 0  # calls in a row
    called: int = 0  # when the last call ended
    free: int = 0  # until when it is left alone after a call
    why: str = ""  # the last call failed
    held: bool = False
    odd: str = ""  # why nobody knows whether it is held


class Use(NamedTuple):
    """How much of a spool's limit is used."""

    used: int
    limit: int

    @property
    def is_high(self) -> bool:
        part, whole = _NEARLY
        return self.limit > 0 and self.used * whole > self.limit * part

    @property
    def most(self) -> int:
        """How many bytes files in pieces may make it."""
        return self.limit - self.limit // _SPARE

    def __str__(self) -> str:
        return f"{self.used * 100 // self.limit} % of the limit of {self.limit >> 20} MiB"


def use_of(found: Settings) -> Use:
    """How much of the limit the spool's file uses. (What is only in the log is left out.)"""
    seen, head = files.look(found.spool), files.read_bytes(found.spool, _FREE.stop) or b""
    free = int.from_bytes(head[_FREE], "big") * _PAGE
    return Use(max(0, (seen.st_size if seen else 0) - free), found.limit)


def room_of(size: int, length: int, words: int) -> int:
    """How many bytes of the spool's file a file of this size needs in pieces of this length, each with so many bytes of words: its bytes
    and its words are a row each, and two rows larger than half a page share none."""
    count, rest = divmod(size, length)
    last = [_room_of_row(rest)] if rest or not count else []
    return count * _room_of_row(length) + sum(last) + (count + len(last)) * _room_of_row(words + _BESIDES)


def _room_of_row(size: int) -> int:
    if size <= _SHARED:
        return -(-_PAGE // (_FULL // (size + _ROW)))
    return size + size // 1000 + _PAGE // 2


class Figures(NamedTuple):
    """A site."""

    own: str
    now: int
    neighbours: tuple[Neighbour, ...]  # and the site itself
    delayed: int = 0  # jobs for this site that could not be delivered yet
    refused: int = 0  # jobs, and files that came in pieces, that are kept below refused/
    untold: int = 0  # of these, those whose users were not told yet
    spool: int = 0  # bytes of the spool's files
    used: int = 0  # bytes of the spool's file that aren't free for new jobs
    limit: int = 0  # of these
    room: int = 0  # bytes that are free on its disk
    round: int = 0  # when uuspool-night made its last round


def gather(found: Settings, ask: _Ask, owner: str = "") -> Figures:
    """The figures of a site. For root its owner looks at the files, who may have put links there: others read the figures."""
    status, queues = _lines(ask, "status"), _lines(ask, "queues")
    try:
        with acting_as(owner):
            figures = _figures(found, status, queues)
            tried = {name for name in files.names_in(f"{found.folder}/deliver") if name.isdecimal()}
    except (ValueError, OverflowError):
        raise Failure(LATER, _ODD) from None
    if tried:  # (The record of a job that is gone stays for a while. If the list can't be had, those count, too.)
        with contextlib.suppress(Failure):
            tried &= {words[0] for words in _lines(ask, "list", f"-s{found.name}")}
    return figures._replace(delayed=len(tried))


def _figures(found: Settings, status: list[list[str]], queues: list[list[str]]) -> Figures:
    contacts = Contacts(found.folder)
    neighbours = {words[0]: _called(words, found.zone, contacts) for words in status}
    for name, jobs, size, _, *moment in queues:
        oldest = clock.seconds(found.zone, " ".join(moment))
        neighbours[name] = neighbours.get(name, Neighbour(name))._replace(jobs=int(jobs), size=int(size), oldest=oldest)
    kept = [name for name in files.names_in(f"{found.folder}/refused") if name[0] != "." and not name.endswith(".warned")]
    use = use_of(found)
    return Figures(
        found.name,
        clock.now(),
        tuple(neighbours[name] for name in sorted(neighbours)),
        refused=len(kept),
        untold=sum(name.endswith(_UNTOLD) for name in kept),
        spool=sum(its.st_size for end in ("", "-wal") if (its := files.look(f"{found.spool}{end}"))),
        used=use.used,
        limit=use.limit,
        room=_room(found.folder),
        round=int(its.st_mtime) if (its := files.look(f"{found.folder}/{ROUND}")) else 0,
    )


def _lines(ask: _Ask, *line: str) -> list[list[str]]:
    ended = ask("uuspool", *line, joined=True)
    if ended.status:
        raise Failure(LATER, f"the spool cannot be asked: {one_line(ended.output)}")
    return named(ended.output)


def named(output: bytes, least: int = 4) -> list[list[str]]:
    """The words of an answer, each line of which has so many at least, and begins with the name of a system. Failure otherwise:
    whatever else runs as the spool's user may have written into the pipe, and root may type such a name."""
    lines = [line.split(" ") for line in output.decode(errors="replace").splitlines()]
    if not all(is_name(words[0]) and len(words) >= least for words in lines):
        raise Failure(LATER, _ODD)
    return lines


def _called(words: list[str], zone: str, contacts: Contacts) -> Neighbour:
    """What a line of `status` says: system, failed calls, wait, how the last call ended, and when; if it failed, why."""
    name, failed, wait, how, *rest = words
    ended = clock.seconds(zone, " ".join(rest[:2])) if how != "never" else 0
    try:
        known, odd = contacts.find(name), ""
    except Failure as failure:  # (The others are counted.)
        known, odd = Contact(), str(failure)
    why = " ".join(rest[2:]) if how == "failed" else ""
    return Neighbour(name, failed=int(failed), called=max(ended, known.called), free=ended + int(wait), why=why, held=known.held, odd=odd)


def _room(folder: str) -> int:
    seen = os.statvfs(folder)
    return seen.f_bavail * seen.f_frsize
