"""What Taylor UUCP is asked to do with a job: the words of its own uux or uucp, and how uustat and its log name that.

Taylor's uux reads its words again, as a shell would, and asks the neighbour for a shell if one has a sign of shells.
So a job with such a word is refused here. A word in parentheses is one word for it."""
import contextlib
import re

from . import forward
from .errors import Refusal
from .jobs import MAIL, REQUEST, Job, Wishes
from .texts import is_name
from .pieces import COMMAND
from .public import SETTINGS, inside
from .values import NamedTuple

_ANSWER = "uuspool-answer"  # takes a bundle
_SHELL = frozenset("\"'`*?[;&()|<>\\$")
_USER = re.compile(r"(?!-)[A-Za-z0-9._!+-]{1,200}\Z")
_MOST_OF_A_NAME = 100


class Errand(NamedTuple):
    """A job for Taylor."""

    program: str  # uux or uucp
    words: tuple[str, ...]
    waits: re.Pattern[str]  # how uustat lists it; the first group, if there is one, is its name in the log
    queued: re.Pattern[str]  # how the log says that it was queued; the first group is its name there
    sent: re.Pattern[str] | None = None  # likewise, that it is sent

    @staticmethod
    def of(job: Job, path: str) -> "Errand":
        """The errand for a job, whose bytes are in a file. Refusal if Taylor can't do it."""
        for word in job.words:
            if any(letter <= " " or letter == "\x7f" for letter in word):
                raise Refusal(f"Taylor UUCP can't bring a word with such letters: {word}")
        job, wishes = plain(job)
        if job.kind == "exec":
            return _execution(job)
        if len(job.words) == 2 and job.kind == "send":
            return _sending(job, path, wishes.notify)
        if len(job.words) == 2 and job.kind == "request":
            return _request(job)
        raise Refusal(f"Taylor UUCP has no job of the kind {job.kind}")

    def name_in(self, what: str) -> str:
        """The name that the log has of a job that uustat lists so, or nothing if that doesn't say it."""
        match = self.waits.match(what)
        return match[1] if match and self.waits.groups else ""


def fetches(job: Job) -> tuple[str, ...]:
    """What a request names in Taylor's log: the file at its origin, and where it comes to. Nothing, if the job is none that goes."""
    with contextlib.suppress(Refusal):
        return Errand.of(job, "").words[-2:] if plain(job)[0].kind == "request" else ()
    return ()


def plain(job: Job) -> tuple[Job, Wishes]:
    """A job without what its user asks for besides, and that. Refusal if it is unknown."""
    if job.kind == "exec" and job.words[0] == REQUEST and len(job.words) > 2:
        return job._replace(kind="request", words=job.words[1:3]), Wishes.read(job.words[3:])
    if job.kind == "send":
        return job._replace(words=job.words[:2]), Wishes.read(job.words[2:])
    return job, Wishes()


def _execution(job: Job) -> Errand:
    command, *words = job.words
    if command == COMMAND:
        raise Refusal(f"{job.system} has plain Taylor UUCP, and this piece of a file says not where it belongs")
    if command == _ANSWER:
        raise Refusal("bundles of this site are made by calls alone")
    if not is_name(command):
        raise Refusal(f"Taylor UUCP can't run a command of such a name: {command}")
    if odd := next((word for word in words if not _SHELL.isdisjoint(word) or not word), None):
        raise Refusal(f"Taylor UUCP would give this word to a shell at {job.system}: {odd}")
    if command == MAIL and (odd := next((word for word in words if f"!{word}".find("!-") >= 0), None)):
        raise Refusal(f"{command} at {job.system}, or behind it, would take this address for an option: {odd}")
    if command == MAIL and job.sender and (odd := next((word for word in words if not forward.is_address(word)), None)):
        raise Refusal(f"{command} at {job.system} might find more than a user in this address of a neighbour's mail: {odd}")
    what = re.escape(" ".join(job.words))
    asker = [f"-a{job.user}"] if _USER.match(job.user) else []
    line = ("-r", "-j", "-z", "-p", f"-g{job.grade}", *asker, "--", f"{job.system}!{command}", *(f"({word})" for word in words))
    waits, queued = rf"Executing {what} \(sending {job.size} bytes\)\Z", rf"Queuing {what} \((D\.\S+)\)\Z"
    sent = rf"Sending {what} \((D\.\S+)\) \({job.size} bytes"
    return Errand("uux", line, re.compile(waits), re.compile(queued), re.compile(sent))


def _path(path: str, system: str) -> str:
    """A path at a site, as uuspool has it: what begins neither with `/` nor with `~` is in the public folder."""
    if "!" in path or not path:
        raise Refusal(f"Taylor UUCP can't bring a file on from {system}: {path}")
    return path if path[0] in "/~" else f"~/{path}"


def _sending(job: Job, path: str, notify: str) -> Errand:
    """A file. Taylor at the neighbour writes the letter for a user there."""
    to = _path(job.words[1], job.system)
    if notify and not _USER.match(notify):
        raise Refusal(f"Taylor UUCP writes no letter to such a user: {notify}")
    letter = [f"-n{notify}"] if notify else []
    line = ("-r", "-j", "-C", f"-g{job.grade}", *letter, "--", path, f"{job.system}!{to}")
    here, there = re.escape(path), re.escape(to)
    waits, queued = rf"Sending ({here}) \({job.size} bytes\) to {there}\Z", rf"Queuing send of ({here}) to {there}\Z"
    return Errand("uucp", line, re.compile(waits), re.compile(queued), re.compile(rf"Sending ({here}) \("))


def _request(job: Job) -> Errand:
    """A file that is fetched. It comes to a folder of its user, because Taylor replaces whatever is there."""
    origin, to = (_path(word, job.system) for word in job.words)
    if not is_name(job.user):
        raise Refusal(f"Taylor UUCP fetches a file into a folder of its user, and there is none of such a name: {job.user}")
    if (below := inside(to)) is None:
        raise Refusal(f"a file that is fetched comes below the public folder alone (~/NAME), not to {to}")
    to = f"~/{job.user}/{below}"
    if SETTINGS in (origin.rpartition("/")[2], to.rpartition("/")[2]):
        raise Refusal(f"no file {SETTINGS} comes here, because whoever works in its folder would go by it")
    if not frozenset("*?[").isdisjoint(origin):
        raise Refusal(f"one file is fetched at a time, and {origin} may be several")
    line = ("-r", "-j", f"-g{job.grade}", "--", f"{job.system}!{origin}", to)
    there, end = re.escape(origin), re.escape(to.removeprefix("~"))
    waits, queued = rf"Requesting ({there} to \S*{end})\Z", rf"Queuing request of ({there} to \S*{end})\Z"
    return Errand("uucp", line, re.compile(waits), re.compile(queued))


def file_name(job: Job) -> str:
    """The name of the file that Taylor gets: that of the sender's file, if it may be one. (If the target is a folder at
    the neighbour, the file gets its name there.)"""
    name = job.words[0].rpartition("/")[2] if job.kind == "send" and job.words else ""
    return name if is_name(name) and len(name) <= _MOST_OF_A_NAME else "file"


class Fate(NamedTuple):
    """What Taylor's log says of a job: whether it was sent or fetched, and at last why it failed, if it did."""

    went: bool
    why: str = ""


def fate(said: list[str], job: Job, name: str) -> Fate:
    """What became of the job that has this name in the log. What was said last counts, because Taylor tries again after
    some errors."""
    job, _ = plain(job)
    names = _names(job, name)
    went, why = False, ""
    for text in said:
        if _went(text, job, names):
            went, why = True, ""
        elif text.startswith("ERROR: ") and (reason := _reason(text.removeprefix("ERROR: "), names)):
            why = reason
    return Fate(went, why)


def sendings(said: list[str], job: Job, name: str) -> list[int]:
    """Which of these lines say that the job is sent or fetched."""
    job, _ = plain(job)
    names = _names(job, name)
    its = names.here or names.origin
    return [at for at, text in enumerate(said) if its in text and _went(text, job, names)]


class _Names(NamedTuple):
    """The names of a job in the log: the file at its origin, and where a fetched one comes to, and what it is if that is a folder."""

    origin: str
    here: str = ""
    inside: str = ""


def _names(job: Job, name: str) -> _Names:
    if job.kind != "request":
        return _Names(name)
    origin, _, here = name.partition(" to ")
    here = here or origin
    return _Names(origin, here, f"{here.rstrip('/')}/{origin.rpartition('/')[2]}")


def fetched(job: Job, name: str) -> tuple[str, ...]:
    """Where a file that was fetched may be here: nowhere, unless the job is one of those."""
    job, _ = plain(job)
    names = _names(job, name)
    return (names.inside, names.here) if job.kind == "request" and names.here.startswith("/") else ()


def was_queued(said: list[str], name: str) -> bool:
    """Whether the log has the line with which it named a job. (Other users' paths may have that name in them.)"""
    names = re.compile(rf"Queuing (request of {re.escape(name)}\Z|send of {re.escape(name)} to |.* \({re.escape(name)}\)\Z)")
    return any(map(names.match, said))


def _went(text: str, job: Job, names: _Names) -> bool:
    name = names.origin
    if job.kind == "exec" and not name:
        return text.startswith(f"Sending {' '.join(job.words)} (D.")
    if job.kind == "exec":
        return text.startswith("Sending ") and f" ({name}) (" in text
    if job.kind == "send":
        return text.startswith(f"Sending {name} (")
    return any(text == f"Receiving {it}" or text.startswith(f"Receiving {it} (") for it in (names.here, names.inside))


def _reason(text: str, names: _Names) -> str:
    """Why one of these failed, if an error is about it."""
    for name in names:
        if name and text.startswith(f"{name}: "):
            return text.removeprefix(f"{name}: ")
        if name and text.startswith(f"{name} (execution of "):
            return text.rpartition('"): ')[2]
    return ""
