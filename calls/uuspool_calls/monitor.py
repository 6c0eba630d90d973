"""One line and a status about a site, as Nagios and programs like it want them: 0 if all is well, 1 to warn, 2 if it
is critical, and 3 if the words are wrong."""
from collections.abc import Iterator, Sequence
from enum import IntEnum

from . import options
from .errors import Failure
from .figures import Figures, Neighbour, Use
from .texts import is_number
from .values import NamedTuple

UNKNOWN = 3
_HOUR = 3600  # seconds
_MINUTE = 60
_MEGABYTE = 1 << 20
_LESS = 10  # a part of the room: with less, nothing may be queued soon


class Grade(IntEnum):
    """How bad something is: the status."""

    OK = 0
    WARNING = 1
    CRITICAL = 2


class Fault(NamedTuple):
    """Something that isn't as it should be."""

    grade: Grade
    what: str


class Limits(NamedTuple):
    """From when on something is a fault."""

    system: str = ""  # the only one that is looked at
    old: int = 26  # hours since a job was queued, to warn: a night and two hours
    too_old: int = 72
    failed: int = 3  # calls in a row, to warn
    failed_often: int = 10
    silent: int = 60  # minutes without a round
    room: int = 100  # MB that have to be free

    @staticmethod
    def read(words: Sequence[str], usage: str) -> "Limits":
        """Those that the words give."""
        try:
            given, rest = options.read(words, "s:w:c:W:C:r:m:", usage)
        except Failure as failure:
            raise Failure(UNKNOWN, str(failure)) from None
        system = given.pop("s", "")
        if rest or not all(map(is_number, given.values())):
            raise Failure(UNKNOWN, usage)
        names = {"w": "old", "c": "too_old", "W": "failed", "C": "failed_often", "r": "silent", "m": "room"}
        return Limits(system)._replace(**{names[letter]: int(value) for letter, value in given.items()})  # type: ignore[arg-type]

    def grade(self, value: int, warns: int, critical: int) -> Grade:
        """How bad a value is. A limit of 0 is none."""
        if critical and value >= critical:
            return Grade.CRITICAL
        return Grade.WARNING if warns and value >= warns else Grade.OK


def report(figures: Figures, limits: Limits) -> tuple[Grade, str]:
    """The status, and the line."""
    chosen = [it for it in figures.neighbours if limits.system in ("", it.name)]
    if not chosen and limits.system:
        return Grade.CRITICAL, line(Grade.CRITICAL, f"no system {limits.system} is defined")
    faults = [fault for it in chosen for fault in _of_neighbour(figures, it, limits)]
    if not limits.system:
        faults += _of_site(figures, limits)
    faults = sorted((it for it in faults if it.grade), key=lambda it: -it.grade)
    grade = faults[0].grade if faults else Grade.OK
    jobs = sum(it.jobs for it in chosen)
    what = "; ".join(it.what for it in faults) or f"{jobs} job{'s' * (jobs != 1)} wait{'s' * (jobs == 1)}"
    return grade, line(grade, what, " ".join(_values(figures, chosen, limits)))


def line(grade: Grade, what: str, values: str = "") -> str:
    """What is printed. (A bar separates the values.)"""
    return f"UUSPOOL {grade.name} - {what.replace('|', '/')}" + (f" | {values}" if values else "")


def _of_neighbour(figures: Figures, its: Neighbour, limits: Limits) -> Iterator[Fault]:
    hours = (figures.now - its.oldest) // _HOUR if its.jobs else 0
    grade = limits.grade(hours, limits.old, limits.too_old)
    held = " and it is held" if its.held else ""
    yield Fault(grade, f"a job for {its.name} waits for {hours} hours{held}")
    grade = limits.grade(its.failed, limits.failed, limits.failed_often)
    yield Fault(grade, f"{its.failed} calls of {its.name} failed in a row: {its.why}")
    yield Fault(Grade.WARNING if its.odd else Grade.OK, its.odd)


def _of_site(figures: Figures, limits: Limits) -> Iterator[Fault]:
    minutes = (figures.now - figures.round) // _MINUTE if figures.round else 0
    yield Fault(limits.grade(minutes, limits.silent, 0), f"uuspool-night made no round for {minutes} minutes")
    untold = Grade.WARNING if figures.untold else Grade.OK
    yield Fault(untold, f"nobody could be told of {figures.untold} refused jobs")
    room, wanted = figures.room // _MEGABYTE, limits.room
    grade = Grade.OK if room >= wanted else Grade.WARNING if room >= wanted // _LESS else Grade.CRITICAL
    yield Fault(grade, f"{room} MB are free for the spool")
    if (use := Use(figures.used, figures.limit)).is_high:
        yield Fault(Grade.WARNING, f"the spool uses {use}")


def _values(figures: Figures, chosen: Sequence[Neighbour], limits: Limits) -> Iterator[str]:
    """What is drawn: a value, and its limits."""
    oldest = min((it.oldest for it in chosen if it.jobs), default=figures.now)
    yield f"jobs={sum(it.jobs for it in chosen)}"
    yield f"bytes={sum(it.size for it in chosen)}B"
    yield f"oldest={max(0, figures.now - oldest)}s;{limits.old * _HOUR};{limits.too_old * _HOUR}"
    yield f"failed={max((it.failed for it in chosen), default=0)};{limits.failed};{limits.failed_often}"
    if not limits.system:
        yield f"delayed={figures.delayed}"
        yield f"refused={figures.refused}"
        yield f"spool={figures.spool}B"
        yield f"free={figures.room}B"
