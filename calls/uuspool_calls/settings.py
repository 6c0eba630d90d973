"""The site, as the program finds it: where its settings, its spool and its log are, and what its clock shows."""
import contextlib
import os
from collections.abc import Sequence

from . import files
from .errors import LATER, NOT_SET_UP, Failure
from .processes import Program
from .session import Session
from .texts import one_line
from .values import NamedTuple

_KNOWN = {"spool", "zone", "offset", "name", "admins", "seals", "limit"}
_MOST = 1 << 13  # bytes that are looked at: what reads them takes time and memory with the square of these
_ENDS_WITHOUT = (2, 5, 126, 127)  # statuses: the settings are wrong, or can't be read, or the program can't be run


class NoSite(Failure):
    """There is no site, or its settings are wrong, as the program says, which ended with a status of its own."""

    def __init__(self, why: str, ended: int = 0) -> None:
        super().__init__(NOT_SET_UP, why)
        self.ended = ended


class Settings(NamedTuple):
    """What `uuspool site` prints. All paths start at the root."""

    name: str  # the site's own name
    path: str  # the settings file
    start: str  # the folder of the site, where relative paths start
    spool: str  # the spool's file
    log: str
    zone: str  # the clock of the site, as the variable TZ has it
    seals: str = ""  # the folder with the keys of neighbours, or nothing if bundles aren't sealed
    limit: int = 0  # bytes of the spool's file beyond which nothing is added

    @property
    def folder(self) -> str:
        """The folder of the spool. All that the commands keep is below it."""
        return os.path.dirname(self.spool)


NOWHERE = Settings("", "", "", "", "", "UTC0")


def find(session: Session, options: Sequence[str] = (), without: str = "") -> Settings:
    """The settings of the site on which this run works, or of one that options of the program name, or of the one without a
    variable. (If the program was killed, as by a limit, nobody knows whether there is a site.)"""
    environment = {name: value for name, value in session.environment.items() if name != without}
    ended = session.processes.run(Program([session.program, *options, "site"], "", environment))
    said = one_line(ended.errors)
    if ended.status in _ENDS_WITHOUT:
        raise NoSite(said or f"{session.program} ended with status {ended.status}", ended.status)
    if ended.status:
        what = f"nobody knows which site this is, because `{session.program} site` ended with status {ended.status}"
        raise Failure(LATER, f"{what}{': ' if said else ''}{said}: try again, without a limit (ulimit -a)")
    return read(ended.output.decode(errors="surrogateescape"))


def read(text: str) -> Settings:
    """The settings in an output of `uuspool site`: a line each, a word and its value. (A path may have what ends a line for Python, but
    no line feed.)"""
    found = dict(line.partition(" ")[::2] for line in text.split("\n"))
    zone = found.get("zone") or _zone_of(int(found.get("offset", 0)))
    limit = int(found.get("limit", 0))
    try:
        return Settings(found["name"], found["settings"], found["folder"], found["spool"], found["log"], zone, found.get("seals", ""), limit)
    except KeyError as word:
        raise NoSite(f"uuspool site says no {word.args[0]}: the program and these commands are of different versions") from None


def _zone_of(minutes: int) -> str:
    """Minutes ahead of UTC have the opposite sign in TZ."""
    hours, rest = divmod(abs(minutes), 60)
    return f"<site>{'-' if minutes >= 0 else '+'}{hours}:{rest}"


def unknown_keys(path: str) -> list[tuple[int, str]]:
    """The lines of a settings file that mean nothing, and their keys. (The program has read it, and its owner may have
    put something else there since.)"""
    import tomllib  # (takes long to load, and no mailer waits for this)

    text = (files.read_bytes(path, _MOST) or b"").decode(errors="replace")
    if len(text) >= _MOST:
        text = text[: text.rfind("\n") + 1]
    with contextlib.suppress(ValueError, RecursionError):
        return sorted((_line_of(key, text), key) for key in tomllib.loads(text) if key not in _KNOWN)
    return []


def _line_of(key: str, text: str) -> int:
    """The line that begins with a key, or a table of its name."""
    import re

    head = re.compile(rf"""\[*\s*["']?{re.escape(key)}["']?\s*[\].=]""")
    return next((at for at, line in enumerate(text.split("\n"), 1) if head.match(line.lstrip())), 0)
