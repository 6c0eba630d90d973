"""How a neighbour is called: by the file of its name in /etc/uuspool/calls. It is a program, or has one line with the
name of a carrier and its words, or is TOML:

    carrier = "ssh"
    words = ["uuspool@duke.example", "-p", "2222"]
    limit = 7200        # seconds of a call
    most = 200_000      # bytes of a bundle, which has one job even so
    port = "radio"      # neighbours with one port are called one after the other
    poll = 60           # minutes after which uuspool-night calls it even if no job is due
    mounted = true      # the folder has to be a mounted disk, or a part of one
    until = "window"    # a call ends a minute after the window has closed
    piece = 100_000     # bytes of a piece of a file, and of the largest job that goes whole

A file without a carrier is for a neighbour that calls here. It says how long a `piece` for it is, and a bundle (`most`)."""
import contextlib
import os
from collections.abc import Callable, Iterable, Mapping

from .. import bundle
from ..files import names_in, read_bytes
from ..session import Session
from ..texts import is_name
from ..values import Any, NamedTuple
from . import ssh

TAYLORS = BY_BUNDLES, BY_JOBS = "uucico", "taylor"  # the carriers of Taylor UUCP, to which the second hands the jobs themselves
NO_CALL = "--no-call"  # of the carrier `taylor`: Taylor's own schedule makes the calls
_LEAST = 1000  # bytes of a bundle or a piece
_MOST_OF_A_LINE = 256  # bytes of the first one of a script
May = Callable[[str, int], bool]  # whether the spool's user may use a file, as os.access says it


class NoCarrier(Exception):
    """Nothing says how to call a neighbour."""


class Carrier(NamedTuple):
    """A carrier: the file that names it, its program and its words."""

    entry: str
    program: str
    words: tuple[str, ...]
    limit: int = 0  # seconds, or 0 for those of the command
    most: int = 0  # bytes of a bundle, or 0 for as many as it may have
    port: str = ""
    poll: int | None = None  # minutes
    mounted: bool = False
    until: str = ""
    piece: int = 0  # bytes, or 0 for as many as is usual

    def kind(self, session: Session) -> str:
        """Its name, if it is one of the package."""
        folder, _, name = self.program.rpartition("/")
        return name if folder == f"{session.library}/carriers" else ""

    def not_mounted(self) -> str:
        """The folder that has to be mounted and isn't, or nothing."""
        place = os.path.realpath(self.words[1]) if self.mounted and len(self.words) > 1 else ""
        while place not in ("", "/"):
            if os.path.ismount(place):
                return ""
            place = os.path.dirname(place)
        return self.words[1] if place else ""

    def answers_at_once(self, session: Session) -> bool:
        """Whether the neighbour answers within the call."""
        return self.kind(session) not in ("folder", *TAYLORS)

    def is_taylors(self, session: Session) -> bool:
        """Whether Taylor UUCP makes the calls, and so brings executions."""
        return self.kind(session) in TAYLORS

    def hands_jobs(self, session: Session) -> bool:
        """Whether Taylor UUCP gets the jobs themselves, and no bundles go."""
        return self.kind(session) == BY_JOBS

    @property
    def leaves_calls(self) -> bool:
        """Whether Taylor's own schedule makes the calls."""
        return NO_CALL in self.words[1:]

    def line(self, session: Session, own: str) -> list[str]:
        """What a call runs. For `ssh` and `command` that is what they would run, without a process between."""
        kind, has_words = self.kind(session), len(self.words) > 1
        if kind == "ssh" and has_words and session.finds("ssh"):
            return ssh.line(session.etc, own, self.words)
        if kind == "command" and has_words:
            return list(self.words[1:])
        return [self.program, *self.words]

    def is_missing(self, session: Session, own: str, status: int) -> bool:
        """Whether a status says that the carrier can't be run, or misses a program. One that began may hand on such a status of the
        neighbour's shell."""
        if status not in (126, 127):
            return False
        program = self.line(session, own)[0]
        return (self.kind(session) != "" and program == self.program) or not _can_begin(session, program)

    def explained(self, session: Session, status: int) -> str:
        """What a status of the carrier means, if that is known."""
        is_ssh = self.kind(session) == "ssh" and len(self.words) > 1 and session.finds("ssh")
        return ssh.explained(self.words[1], status) if is_ssh else ""


def entry_of(session: Session, neighbour: str) -> str:
    """The file that says how to call a neighbour."""
    return f"{session.etc}/calls/{neighbour}"


def find(session: Session, neighbour: str, may: May = os.access) -> Carrier:
    """How to call a neighbour: the entry itself, if it is a program, or what its line says."""
    entry = entry_of(session, neighbour)
    if os.path.islink(entry) and not os.path.exists(entry):
        raise NoCarrier(f"{entry} is a link to {os.readlink(entry)}, which isn't there")
    if os.path.isfile(entry):
        if may(entry, os.X_OK):
            return Carrier(entry, entry, (neighbour,))
        if may(entry, os.R_OK):
            return _named(session, neighbour, entry, may)
    raise NoCarrier(f"no readable file {entry} says how to call {neighbour}: see uuspool-setup")


def has_plain_taylor(session: Session, neighbour: str, may: May = os.access) -> bool:
    """Whether a neighbour has Taylor UUCP alone, so that no bundles go there or come from it."""
    with contextlib.suppress(NoCarrier):
        return find(session, neighbour, may).hands_jobs(session)
    return False


def _can_begin(session: Session, program: str) -> bool:
    """Whether a program is there, and so is the one that runs it, if its first line names one."""
    head, _, _ = (read_bytes(program, _MOST_OF_A_LINE) or b"").partition(b"\n")
    runs = head.removeprefix(b"#!").split(maxsplit=1) if head.startswith(b"#!") else []
    return all(map(session.finds, (program, *map(os.fsdecode, runs[:1]))))


def handed_on_at_once(session: Session, systems: Iterable[str]) -> list[str]:
    """Those of these systems for which the spool itself hands mail on. Mail for one with plain Taylor UUCP is a job of this site first, because
    nobody there judges what a stranger wrote, and a delivery does."""
    return [system for system in systems if not has_plain_taylor(session, system)]


def values_of(session: Session, neighbour: str) -> dict[str, Any]:
    """What the entry of a neighbour says in TOML; nothing if there is none, or if it is wrong. An entry without a
    carrier is for a neighbour that calls here."""
    entry = entry_of(session, neighbour)
    text = (read_bytes(entry) or b"").decode(errors="surrogateescape")
    with contextlib.suppress(NoCarrier):
        if not os.access(entry, os.X_OK) and _is_table(text):
            return _table(entry, text)
    return {}


def most_for(session: Session, caller: str) -> int:
    """Bytes of a bundle for a neighbour that calls here, or 0 for as many as it may have."""
    return int(values_of(session, caller).get("most", 0))


def any_polls(session: Session) -> bool:
    """Whether a file of a call has a word of polls, so that it is worth to look at each of them."""
    folder = f"{session.etc}/calls"
    return any(b"poll" in (read_bytes(f"{folder}/{name}") or b"") for name in names_in(folder))


def _named(session: Session, neighbour: str, entry: str, may: May) -> Carrier:
    with open(entry, encoding="utf-8", errors="surrogateescape") as file:
        text = file.read()
    lines = [line for line in text.split("\n") if line.strip() and not line.startswith("#")]
    if not lines:
        raise NoCarrier(f"{entry} is empty, so nothing says how to call {neighbour}")
    values = _table(entry, text) if _is_table(text) else {"words": lines[0].split()}
    if _is_table(text) and "carrier" not in values:
        raise NoCarrier(f"{entry} names no carrier, so nothing says how to call")
    words = [*([values.pop("carrier")] if "carrier" in values else []), *values.pop("words", [])]
    program = words[0] if "/" in words[0] else f"{session.library}/carriers/{words[0]}"
    if os.path.isdir(program) or not may(program, os.X_OK):
        raise NoCarrier(f"{entry} names the carrier {words[0]}, and there is no program {program}")
    return Carrier(entry, program, (neighbour, *words[1:]), **values)


def _is_table(text: str) -> bool:
    """Whether an entry is TOML, by its first line that says something."""
    lines = (line for line in text.split("\n") if line.strip() and not line.lstrip().startswith("#"))
    key, is_toml, _ = next(lines, "").partition("=")
    return bool(is_toml) and key.strip().replace("_", "").isalnum()


def _table(entry: str, text: str) -> dict[str, Any]:
    """The values in a file of TOML, each of which has to be right."""
    import tomllib  # (takes long to load)

    try:
        values = tomllib.loads(text)
    except ValueError as error:
        raise NoCarrier(f"{entry} is no TOML: {error}") from None
    for key, value in values.items():
        if key not in _RIGHT:
            raise NoCarrier(f"{entry}: there is no key {key}: the keys are {', '.join(_RIGHT)}")
        if not _RIGHT[key].is_right(value):
            raise NoCarrier(f"{entry}: {key} has to be {_RIGHT[key].what}")
    return values


class _Right(NamedTuple):
    """What a value has to be."""

    what: str
    is_right: Callable[[Any], bool]


_RIGHT: Mapping[str, _Right] = {
    "carrier": _Right("the name of a carrier, or the path of a program", lambda it: isinstance(it, str) and it != ""),
    "words": _Right("a list of texts", lambda it: isinstance(it, list) and all(isinstance(word, str) for word in it)),
    "limit": _Right("seconds", lambda it: type(it) is int and it > 0),
    "port": _Right("a name", lambda it: isinstance(it, str) and is_name(it)),
    "poll": _Right("minutes", lambda it: type(it) is int and it >= 0),
    "mounted": _Right("true or false", lambda it: isinstance(it, bool)),
    "until": _Right('"window"', lambda it: bool(it == "window")),
    "most": _Right(f"bytes, from {_LEAST} to {bundle.MOST_UNSEALED}", lambda it: type(it) is int and _LEAST <= it <= bundle.MOST_UNSEALED),
    "piece": _Right(f"bytes, from {_LEAST} to {bundle.MOST_OF_A_JOB}", lambda it: type(it) is int and _LEAST <= it <= bundle.MOST_OF_A_JOB),
}
