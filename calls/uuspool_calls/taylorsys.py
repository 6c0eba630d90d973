"""What Taylor UUCP's sys file means for a site of uuspool: its times, and the lines whose meaning is lost.

Keywords of ports, chats and protocols stay in Taylor's files, and nothing is said of them. An alternate is another way
to make the same call, so its times are times of the system."""
import re
from collections.abc import Iterator, Sequence

from .texts import is_name
from .values import NamedTuple

_TIMES = ("time", "timegrade")
_OURS = (*_TIMES, "max-retries", "success-wait", "system", "timetable")
_STAY = frozenset(
    "alternate default-alternates call-local-size call-remote-size called-local-size called-remote-size baud speed baud-range "
    "speed-range port phone address call-login call-password called-login callback sequence protocol protocol-parameter debug "
    "max-remote-debug send-request receive-request request call-transfer called-transfer transfer free-space max-file-time".split()
)
_CHAT = re.compile(r"(called-)?chat(-\w+)?\Z")
_LOST = {
    "alias": "addresses with this name find no system here",
    "call-timegrade": "a call asks for the grades of its own time lines",
    "called-timegrade": "who calls gets all grades",
    "commands": "/etc/uuspool/commands says what neighbours may run",
    "command-path": "/etc/uuspool/commands says where programs are",
    "forward": "/etc/uuspool/forward says whose mail is handed on",
    "forward-to": "/etc/uuspool/forward says whose mail is handed on",
    "forward-from": "/etc/uuspool/forward says whose mail is handed on",
}
_LOST_BY_BUNDLES = {
    "local-send": "any file of a user goes that he may read",
    "local-receive": "files come to the public folder alone",
    "remote-send": "neighbours fetch from the public folder alone",
    "remote-receive": "/etc/uuspool/public says where files of neighbours come",
    "pubdir": "/etc/uuspool/public says where files of neighbours come",
    "myname": "bundles have this site's one name",
}
_WHOLE_DAY = re.compile(r"(\d{4})-\1")
_NO_LIMIT = "1000000"  # the most that a sys file may have


class Line(NamedTuple):
    """A line with its number, and its words."""

    number: int
    words: tuple[str, ...]

    @property
    def keyword(self) -> str:
        """Its first word."""
        return self.words[0].lower()


class Lost(NamedTuple):
    """A line whose meaning is lost, and why."""

    number: int
    line: str
    why: str


class System(NamedTuple):
    """A system of Taylor's sys file."""

    name: str
    lines: tuple[Line, ...]  # the file's own defaults come first

    def text(self, timetables: Sequence[Line], opened: bool = False) -> str:
        """Its definition here. If it is `opened`, jobs for it may go at any time."""
        times = [("time", "Any")] if opened else self._meant(*_TIMES)
        others = [it for keyword in ("max-retries", "success-wait") for it in self._meant(keyword)[-1:]]
        tables = [("timetable", *line.words[1:]) for line in timetables]
        return "".join(f"{' '.join(words)}\n" for words in (*tables, ("system", self.name), *times, *others))

    @property
    def is_never_called(self) -> bool:
        """Whether no time line lets it be called, so it calls here."""
        return all(words[0] == "time" and words[1:2] and words[1].lower() == "never" for words in self._meant(*_TIMES))

    @property
    def is_always_called(self) -> bool:
        """Whether Taylor never holds a call of it back."""
        return [" ".join(words).lower() for words in self._meant(*_TIMES)] == ["time any"] and not self._meant("success-wait")

    @property
    def may_debug(self) -> bool:
        """Whether a call of it turns Taylor's debugging on."""
        logins, levels = ([words[1:] for words in self._meant(keyword)] for keyword in ("called-login", "max-remote-debug"))
        return set(logins) != {("never",)} and set(levels) != {("none",)}

    def _meant(self, *keywords: str) -> Sequence[tuple[str, ...]]:
        """What the lines with these keywords mean here: its own, or else the defaults."""
        begin = next(at for at, line in enumerate(self.lines) if line.keyword == "system")
        own, defaults = ([_as_here(it.words) for it in lines if it.keyword in keywords] for lines in (self.lines[begin:], self.lines[:begin]))
        return own or defaults


class SysFile(NamedTuple):
    """Taylor's sys file."""

    systems: tuple[System, ...]
    timetables: tuple[Line, ...]
    lines: tuple[Line, ...]

    @staticmethod
    def read(text: str) -> "SysFile":
        """What a file says."""
        lines = tuple(lines_in(text))
        begins = [at for at, line in enumerate(lines) if line.keyword == "system" and len(line.words) > 1]
        first = begins[0] if begins else len(lines)
        blocks = [lines[begin:end] for begin, end in zip(begins, [*begins[1:], len(lines)])]
        systems = tuple(System(block[0].words[1], (*lines[:first], *block)) for block in blocks if is_name(block[0].words[1]))
        return SysFile(systems, tuple(line for line in lines if line.keyword == "timetable"), lines)

    def lost(self, by_bundles: bool) -> list[Lost]:
        """The lines whose meaning is lost, if jobs go in bundles, or else by Taylor's own uux and uucp."""
        found = []
        for line in self.lines:
            if why := _why_lost(line, by_bundles):
                found.append(Lost(line.number, " ".join(line.words), why))
        return found


def _as_here(words: tuple[str, ...]) -> tuple[str, ...]:
    """A line of ours. (Taylor's `max-retries 0` sets no limit.)"""
    keyword = words[0].lower()
    return (keyword, _NO_LIMIT) if keyword == "max-retries" and words[1:] == ("0",) else (keyword, *words[1:])


def _why_lost(line: Line, by_bundles: bool) -> str:
    if line.keyword in _LOST:
        return _LOST[line.keyword]
    if line.keyword in _TIMES and any(map(_WHOLE_DAY.search, line.words)):
        return "hours from a minute to the same one are that minute here, and the whole day in Taylor UUCP"
    if line.keyword in _LOST_BY_BUNDLES:
        return _LOST_BY_BUNDLES[line.keyword] if by_bundles else ""
    known = line.keyword in _STAY or line.keyword in _OURS or _CHAT.match(line.keyword)
    return "" if known else "Taylor UUCP has no such keyword"


def lines_in(text: str) -> Iterator[Line]:
    """The lines of one of Taylor's files, without comments. A line that ends in a backslash goes on in the next one."""
    begun, before = 0, ""
    for number, line in enumerate(text.split("\n"), 1):
        whole = before + re.sub(r"(?<!\\)#.*", "", line).replace("\\#", "#")
        begun = begun or number
        if whole.endswith("\\"):
            before = whole[:-1]
            continue
        if words := whole.split():
            yield Line(begun, tuple(words))
        begun, before = 0, ""
