"""Time strings, the clock of a site, and the week that it shows."""
import datetime
import os
import re
import time
from collections.abc import Iterator
from functools import lru_cache
from typing import NamedTuple

MINUTE, HOUR, DAY = 60, 3600, 86_400
GRADES = "0123456789ABCDEFGHIJKLMNOPQRSTUVWXYZabcdefghijklmnopqrstuvwxyz"


class Line(NamedTuple):
    """A time line: its grade, its time string, and minutes or None."""

    grade: str
    times: str
    retry: int | None


DAY_WORDS: dict[str, tuple[int, ...]] = {word: (day,) for day, word in enumerate(("su", "mo", "tu", "we", "th", "fr", "sa"))}
DAY_WORDS |= {"wk": (1, 2, 3, 4, 5), "any": (0, 1, 2, 3, 4, 5, 6)}
TIMETABLES = {
    "evening": "wk1705-0755,sa,su",
    "night": "wk2305-0755,sa,su2305-1655",
    "nonpeak": "wk1805-0655,sa,su",
}
WORD = "|".join(DAY_WORDS)
SIMPLE = re.compile(f"((?:{WORD})+)(?:([01][0-9]|2[0-3])([0-5][0-9])-(?:([01][0-9]|2[0-3])([0-5][0-9])|2400))?")


def runs_of(times: str) -> Iterator[tuple[int, int, int]]:
    """The runs of minutes of a time string within its days. Each is a day of the week, Sunday
    first, and the first and the last minute there."""
    times = times.lower()
    for part in [] if times == "never" else re.split("[|,]", TIMETABLES.get(times, times)):
        simple = SIMPLE.fullmatch(part)
        if not simple:
            raise ValueError(f"{times[:60]!r} is no time string")
        words, *clock = simple.groups()
        first, last = 0, 1439
        if clock[0]:
            first = 60 * int(clock[0]) + int(clock[1])
        if clock[2]:
            last = 60 * int(clock[2]) + int(clock[3])
        runs = ((first, last),) if first <= last else ((0, last), (first, 1439))
        yield from ((day, *run) for word in re.findall(WORD, words) for day in DAY_WORDS[word] for run in runs)


@lru_cache(maxsize=None)
def week_of(lines: tuple[Line, ...]) -> tuple[bytes, ...]:
    """For each day of the week its 1,440 minutes: 0 if no line is open, else one more than the
    rank of the lowest grade that may go."""
    minutes = [bytearray(1440) for _ in range(7)]
    for line in sorted(lines, key=lambda line: GRADES.index(line.grade)):
        mark = bytes([GRADES.index(line.grade) + 1])
        for day, first, last in runs_of(line.times):
            minutes[day][first : last + 1] = mark * (last + 1 - first)
    return tuple(map(bytes, minutes))


class Clock:
    """What the clock of a site shows, as seconds counted on the clock itself: 0 is its
    1970-01-01 00:00:00. The C library reads the rule of a zone, as POSIX has it in TZ."""

    def __init__(self, zone: str) -> None:
        os.environ["TZ"] = zone
        time.tzset()

    def ahead(self, second: int) -> int:
        """How many seconds it is ahead of UTC."""
        return time.localtime(second).tm_gmtoff

    def shown(self, second: int) -> int:
        """What it shows at a second."""
        return second + self.ahead(second)

    def seconds_of(self, shown: int, latest: int) -> list[int]:
        """The seconds, one or two, up to the latest at which the clock showed this. If the clock
        was set back since, a later one."""
        tried = {shown - self.ahead(shown - DAY), shown - self.ahead(shown + DAY)}
        found = sorted(second for second in tried if self.shown(second) == shown) or [min(tried)]
        return [second for second in found if second <= latest] or found[:1]

    def changes(self, begin: int, end: int) -> Iterator[int]:
        """The seconds between these two at which the clock changes."""
        for second in range(begin, end, HOUR):
            low, high = second, min(second + HOUR, end)
            if self.ahead(low) != self.ahead(high):
                while high - low > 1:
                    middle = (low + high) // 2
                    low, high = (middle, high) if self.ahead(middle) == self.ahead(low) else (low, middle)
                yield high


def moment(shown: int) -> datetime.datetime:
    """The date and the time of day that the clock shows."""
    return datetime.datetime(1970, 1, 1) + datetime.timedelta(seconds=shown)


def shown_of(printed: str) -> int:
    """What the clock showed, from a date and a time of day as the program prints them."""
    return int((datetime.datetime.fromisoformat(printed) - datetime.datetime(1970, 1, 1)).total_seconds())


class Part(NamedTuple):
    """A part of a day of the clock, in seconds from its midnight."""

    day: int
    begin: int
    end: int
    ahead: int  # how far the clock is ahead of UTC there
    place: int  # 0, or if the clock shows the part twice, 1 the first time and 2 the second time


class Skipped(NamedTuple):
    """A part of a day that the clock skips."""

    day: int
    begin: int
    end: int


class Week:
    """The day of now on the site's clock and the six days after it, as the clock shows them."""

    def __init__(self, clock: Clock, now: int) -> None:
        self.clock, self.now = clock, now
        self.first = clock.shown(now) // DAY
        begin, end = DAY * (self.first - 2), DAY * (self.first + 9)
        edges = [begin, *clock.changes(begin, end), end]
        self.moves: list[tuple[int, int]] = []  # as what the clock showed last and what it shows next
        self.parts: list[Part] = []
        self.skipped: list[Skipped] = []
        aheads = [clock.ahead(second) for second in edges[:-1]]
        for place, ahead in enumerate(aheads):
            begin, end = edges[place] + ahead, edges[place + 1] + ahead
            before = edges[place] + aheads[place - 1] if place else begin
            after = edges[place + 1] + aheads[place + 1] if place + 1 < len(aheads) else end
            self.skipped += [Skipped(*span) for span in self.days(before, begin)]
            if before != begin and self.days(min(before, begin), max(before, begin)):
                self.moves.append((before, begin))
            self.add(begin, min(before, end), ahead, 2)
            self.add(max(begin, before), min(end, after), ahead, 0)
            self.add(max(begin, after), end, ahead, 1)

    def days(self, begin: int, end: int) -> list[tuple[int, int, int]]:
        """The parts of a period of the clock, day by day."""
        spans: list[tuple[int, int, int]] = []
        for day in range(7):
            midnight = DAY * (self.first + day)
            low, high = max(begin, midnight), min(end, midnight + DAY)
            spans += [(day, low - midnight, high - midnight)] if low < high else []
        return spans

    def add(self, begin: int, end: int, ahead: int, place: int) -> None:
        """Adds a period of the clock."""
        self.parts += [Part(*span, ahead, place) for span in self.days(begin, end)]

    def midnight(self, part: Part) -> int:
        """The second of UTC from which the seconds of a part count."""
        return DAY * (self.first + part.day) - part.ahead

    def within(self, begin: int, end: int) -> Iterator[Part]:
        """The time between two seconds of UTC, as parts of days."""
        for part in self.parts:
            midnight = self.midnight(part)
            low, high = max(part.begin, begin - midnight), min(part.end, end - midnight)
            if low < high:
                yield part._replace(begin=low, end=high)

    def date(self, day: int) -> datetime.datetime:
        """The date of a day."""
        return moment(DAY * (self.first + day))


def stamp(clock: Clock, second: int) -> str:
    """The date and the time of day that the clock shows at a second."""
    return f"{moment(clock.shown(second)):%Y-%m-%d %H:%M:%S}"
