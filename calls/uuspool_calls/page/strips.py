"""The picture of a week."""
import re
from collections.abc import Iterable, Iterator, Mapping, Sequence
from functools import lru_cache

from .answers import Call, Definition, Next
from .markup import grades, hours, tag, text, twice
from .times import DAY, GRADES, MINUTE, Part, Week, stamp, week_of

_MOST_RUNS = 3  # in an hour that is drawn run by run


def across(second: int) -> str:
    """How far a second of the day is from its left edge."""
    return f"{second * 100 / DAY:.3f}".rstrip("0").rstrip(".") + "%"


def box(part: Part, title: str, **attributes: object) -> str:
    """A part of a day. If the clock shows it twice, the first is above the second."""
    height = {"y": ("0", "0", "54%")[part.place], "height": ("100%", "46%", "46%")[part.place]}
    its = {"x": across(part.begin), "width": across(part.end - part.begin), **height}
    data = {"data_from": part.begin, "data_until": part.end, "data_pass": part.place or None}
    return tag("rect", tag("title", text(title)), **its, **data, **attributes)


def shades_of(definitions: Iterable[Definition]) -> dict[int, float]:
    """How dark each limit of these systems is drawn. The darkest is the one that allows every
    grade, and the others follow in even steps, lighter the fewer grades may go."""
    limits = sorted({GRADES.index(line.grade) + 1 for its in definitions for line in its.lines} - {len(GRADES)})
    shades = {0: 0.0, len(GRADES): 1.0}
    for place, limit in enumerate(limits):
        shades[limit] = 0.46 if len(limits) == 1 else 0.22 + 0.5 * place / (len(limits) - 1)
    return shades


RUN = re.compile(rb"([^\0])\1*", re.DOTALL)


def open_boxes(week: Week, shades: Mapping[int, float], part: Part, minutes: bytes) -> Iterator[str]:
    """The parts of the day in which jobs may go. An hour with more runs than can be seen is one
    box."""
    named = f"{week.date(part.day):%a}"
    first, last = part.begin // MINUTE, (part.end + MINUTE - 1) // MINUTE
    cuts = [(first, last)]
    if sum(1 for _ in RUN.finditer(minutes, first, last)) > 24 * _MOST_RUNS:
        edges = sorted({first, *range(first + 60 - first % 60, last, 60), last})
        cuts = list(zip(edges, edges[1:]))
    for low, high in cuts:
        runs = list(RUN.finditer(minutes, low, high))
        if len(cuts) > 1 and len(runs) > _MOST_RUNS:
            marks = minutes[low:high]
            span = part._replace(begin=max(part.begin, low * MINUTE), end=min(part.end, high * MINUTE))
            limit, its = GRADES[max(marks) - 1], sum(map(bool, marks))
            title = f"{named} {hours(span.begin, span.end)}{twice(part.place)}: in {its} of {len(marks)} minutes, {grades(limit)} at most"
            mean = sum(shades[mark] for mark in marks) / len(marks)
            yield box(span, title, class_="open", fill_opacity=f"{mean:.2f}", data_limit=limit, data_minutes=its)
            continue
        for run in runs:
            span = part._replace(begin=max(part.begin, run.start() * MINUTE), end=min(part.end, run.end() * MINUTE))
            limit = GRADES[run[1][0] - 1]
            title = f"{named} {hours(span.begin, span.end)}{twice(part.place)}: {grades(limit)}"
            yield box(span, title, class_="open", fill_opacity=f"{shades[run[1][0]]:.2f}", data_limit=limit)


class Strips:
    """The week of each system, as a picture for each of its days."""

    def __init__(self, week: Week, shades: Mapping[int, float]) -> None:
        self.week, self.shades = week, shades
        dates = map(week.date, range(7))
        self.names = [(f"{date:%A}", f"{date:%Y-%m-%d}", f"{date:%a} {date.day}") for date in dates]
        self.drawn = lru_cache(maxsize=None)(self.draw_open)
        self.below: list[list[str]] = [[] for _ in range(7)]
        for skipped in week.skipped:
            title = f"{week.date(skipped.day):%a} {hours(skipped.begin, skipped.end)}: the clock skips this"
            self.below[skipped.day].append(box(Part(*skipped, 0, 0), title, class_="skipped"))

    def draw_open(self, day: int, minutes: bytes) -> str:
        """The parts of a day in which jobs may go."""
        parts = (part for part in self.week.parts if part.day == day)
        return "".join(self.below[day]) + "".join(drawn for part in parts for drawn in open_boxes(self.week, self.shades, part, minutes))

    def mark(self, second: int, title: str, **attributes: object) -> tuple[int, str] | None:
        """The day of a second, and its mark there; none if it isn't within these days."""
        for part in self.week.within(second, second + 1):
            data = {"data_at": part.begin, "data_pass": part.place or None, "x": across(part.begin)}
            shape = tag("path", d=("M-5 0h10L0 9z", "M-5 0h10L0 9z", "M-5 15h10L0 24z")[part.place])
            if attributes["class_"] == "now":
                low, high = (("-4", "100%"), ("-4", "50%"), ("50%", "100%"))[part.place]
                shape = tag("line", y1=low, y2=high)
            return part.day, tag("svg", tag("title", text(title)) + shape, overflow="visible", **data, **attributes)
        return None

    def strip(self, definition: Definition, call: Call, last: int | None, coming: Next | None) -> str:
        """The seven days of a system: when it may be called, the wait after its last call, now, and
        its next call."""
        week = self.week
        over: list[list[str]] = [[] for _ in range(7)]
        if last is not None and call.wait:
            for part in week.within(last, last + call.wait):
                span = f"{week.date(part.day):%a} {hours(part.begin, part.end)}{twice(part.place)}"
                over[part.day].append(box(part, f"{span}: left alone after the call of {call.shown}", class_="wait"))
        marks = [self.mark(week.now, f"now, {stamp(week.clock, week.now)}", class_="now")]
        if coming and coming.second is not None:
            told = f"next call {stamp(week.clock, coming.second)}, job {coming.number} of grade {coming.grade}"
            marks.append(self.mark(coming.second, told, class_="next") or (6, self.later(told)))
        for day, drawn in filter(None, marks):
            over[day].append(drawn)
        minutes = week_of(definition.lines)
        return "".join(map(self.day, range(7), minutes_by_day(week, minutes), over))

    def later(self, title: str) -> str:
        """A next call that is later than these days: an arrow at their end."""
        return tag("svg", tag("title", text(title)) + tag("path", d="M-9 10v10L0 15z"), overflow="visible", x="100%", class_="next later")

    def day(self, day: int, minutes: bytes, over: Iterable[str]) -> str:
        """A day of a strip."""
        name, date, short = self.names[day]
        drawn = tag("svg", self.drawn(day, minutes) + "".join(over), role="group", aria_label=name, data_day=date)
        return tag("span", drawn, class_="day", data_label=short)


def minutes_by_day(week: Week, minutes: Sequence[bytes]) -> list[bytes]:
    """The minutes of each of the days, from the present one on. The clock's day 0 was a
    Thursday."""
    return [minutes[(week.first + day + 4) % 7] for day in range(7)]
