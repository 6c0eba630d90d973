"""The whole page of a spool."""
import itertools
import re
from collections.abc import Callable, Iterable, Iterator, Mapping, Sequence
from typing import NamedTuple

from ..wholes import Listed
from .answers import Answers
from .beside import Beside
from .markup import count, grades, lasting, row, size, tag, text
from .strips import Strips, shades_of
from .style import PATTERNS, POLICY, STYLE
from .times import GRADES, MINUTE, Clock, Line, Week, moment, shown_of

_SHOWN_JOBS = 5  # of each system
_SHOWN_LINES = 25  # of today's calls, and of refused jobs
_SHOWN_PIECES = 48  # of a time string


class Sums(NamedTuple):
    """The sums over all systems."""

    jobs: int
    size: int
    highest: str
    oldest: int | None
    due: int
    failing: int


Heads = Mapping[str, str | None]  # the names of columns, and their classes
_CAPTIONS = {"waits": "What waits", "calls": "Calls"}
WHY = {
    "due": "may be called now",
    "held": "left alone after its last call",
    "closed": "no time line is open",
    "grade": "open for higher grades alone",
}


class Page:
    """The page of a spool at a second."""

    def __init__(self, site: str, spool: Answers, clock: Clock, now: int, beside: Beside) -> None:
        self.site, self.spool, self.clock, self.now, self.beside = site, spool, clock, now, beside
        self.week = Week(clock, now)
        self.strips = Strips(self.week, shades_of(spool.definitions.values()))
        self.sums = self.sum_up()

    def time(self, second: int, form: str = "%Y-%m-%d %H:%M") -> str:
        """A second of UTC, as the clock shows it to the minute."""
        ahead = self.clock.ahead(second)
        sign, minutes = "-" if ahead < 0 else "+", abs(ahead) // MINUTE
        shown = moment(second + ahead)
        full = f"{shown:%Y-%m-%dT%H:%M:%S}{sign}{minutes // 60:02}:{minutes % 60:02}"
        return tag("time", text(f"{shown:{form}}"), datetime=full, title=f"{shown:%A %Y-%m-%d %H:%M:%S}")

    def printed(self, printed: str) -> int:
        """The second of a date and a time in the past that the program printed."""
        return self.clock.seconds_of(shown_of(printed), self.now)[-1]

    def held(self, name: str) -> str | None:
        """Until when a system is left alone now, in words, or None."""
        call, last = self.spool.calls[name], self.spool.lasts.get(name)
        if last is None or not last <= self.now < last + call.wait:
            return None
        return f"left alone until {self.soon(last + call.wait)}"

    # -- the rows of a system

    def waits(self, name: str) -> str:
        """What waits for a system."""
        queue = self.spool.queues.get(name)
        head = tag("th", self.link(name), scope="row")
        if not queue:
            return head + tag("td", "0", class_="number none", data_label="Jobs") + tag("td", class_="none") * 3
        oldest = self.printed(queue.oldest)
        cells = [tag("td", f"{queue.jobs:,}", class_="number", data_label="Jobs")]
        cells.append(tag("td", self.size(queue.size), class_="number", data_label="Size"))
        cells.append(tag("td", text(queue.highest), class_="grade", data_label="Grade"))
        cells.append(tag("td", self.time(oldest), data_label="Oldest job", data_note=f"{lasting(max(0, self.now - oldest))} ago"))
        return head + "".join(cells)

    def calls(self, name: str) -> str:
        """How the last call of a system went, when the next one can come, and why not now."""
        call, last = self.spool.calls[name], self.spool.lasts.get(name)
        shown = tag("span", "never", class_="none") if last is None else self.time(last)
        went = {"never": "", "done": "done"}.get(call.outcome, call.why)
        cells = [tag("th", text(name), scope="row"), tag("td", shown, class_="last", data_label="Last call")]
        cells.append(tag("td", f"{call.failures:,}", class_="failures" + ("" if call.failures else " none")))
        cells.append(tag("td", text(went), class_=f"went {call.outcome}", title=went))
        return "".join(cells) + self.next_call(name)

    def next_call(self, name: str) -> str:
        coming, state = self.spool.nexts.get(name), self.state(name)
        if coming is None:
            when = tag("span", "no job", class_="none")
            return tag("td", when, class_="next-call", data_label="Next call") + tag("td", class_="why")
        told = f"{WHY.get(coming.reason, coming.reason)}; job {coming.number}, grade {coming.grade}"
        badge = tag("span", text(coming.reason), class_=f"badge {state}", title=told)
        if coming.second is None:
            when, note = "never", "for four weeks"
        elif state == "due":
            when, note = "now", f"job {coming.number}"
        else:
            when, note = self.time(coming.second), f"in {lasting(coming.second - self.now)}"
        return tag("td", when, class_="next-call", data_label="Next call") + tag("td", badge, class_="why", data_note=note)

    def figure(self, name: str, row: int) -> str:
        its = (self.spool.definitions[name], self.spool.calls[name], self.spool.lasts.get(name), self.spool.nexts.get(name))
        drawn = tag("div", self.strips.strip(*its), class_="week")
        return tag("figure", drawn, style=f"--n:{row}", aria_label=f"The next seven days of {name}", data_system=name)

    def state(self, name: str) -> str:
        coming = self.spool.nexts.get(name)
        return "idle" if coming is None else "never" if coming.second is None else coming.reason

    def size(self, number: int) -> str:
        return tag("data", text(size(number)), value=number, title=f"{number:,} bytes")

    def soon(self, second: int) -> str:
        """The time of day of a second, after its date if that isn't today."""
        shown = moment(self.clock.shown(second))
        today = moment(self.clock.shown(self.now)).date()
        return f"{shown:%H:%M}" if shown.date() == today else f"{shown:%Y-%m-%d %H:%M}"

    # -- the parts of the page

    def sum_up(self) -> Sums:
        queues = self.spool.queues.values()
        jobs, total = sum(queue.jobs for queue in queues), sum(queue.size for queue in queues)
        highest = min((queue.highest for queue in queues), key=GRADES.index, default="")
        oldest = min((self.printed(queue.oldest) for queue in queues), default=None)
        due = sum(coming.second == self.now for coming in self.spool.nexts.values())
        return Sums(jobs, total, highest, oldest, due, sum(call.failures > 0 for call in self.spool.calls.values()))

    def tiles(self) -> str:
        """The sums over all."""
        sums, oldest, since = self.sums, "none", "nothing waits"
        if sums.oldest is not None:
            oldest, since = lasting(max(0, self.now - sums.oldest)), f"since {self.time(sums.oldest)}"
        tiles = [
            ("Jobs", f"{sums.jobs:,}", f"for {len(self.spool.queues):,} of {count(len(self.spool.names), 'system')}"),
            ("Size", self.size(sums.size), f"highest grade {sums.highest}" if sums.highest else "nothing waits"),
            ("Oldest job", oldest, since),
            ("Due now", f"{sums.due:,}", "may be called now"),
            ("Next call", *self.soonest()),
            ("Failing", f"{sums.failing:,}", "whose last call failed"),
        ]
        drawn = (tag("dt", name) + tag("dd", value) + tag("dd", note, class_="note") for name, value, note in tiles)
        return tag("dl", "".join(tag("div", tile) for tile in drawn), class_="tiles")

    def soonest(self) -> tuple[str, str]:
        """When the first system can be called that can't be called now, and which one."""
        later = [(its.second, name) for name, its in self.spool.nexts.items() if its.second is not None and its.second != self.now]
        if not later:
            return "none", "no other call is to come"
        second, name = min(later)
        return f"in {lasting(second - self.now)}", f"{text(name)} at {self.soon(second)}"

    def link(self, name: str, note: str | None = None) -> str:
        return tag("a", text(name), href=f"#system-{name}", title=name) + (f" ({text(note)})" if note else "")

    def notices(self) -> Iterator[str]:
        """What needs attention: jobs that can't go, calls that failed, and a clock that changes."""
        nexts = {name: coming for name, coming in self.spool.nexts.items() if not self.spool.definitions[name].calls_here}
        never = [self.link(name, coming.reason) for name, coming in nexts.items() if coming.second is None]
        if never:
            yield tag("p", tag("b", "Never called") + f" within four weeks, though jobs wait: {', '.join(never)}", class_="notice warn")
        calls = self.spool.calls
        failed = sorted((name for name in self.spool.names if calls[name].failures), key=lambda name: -calls[name].failures)
        if failed:
            links = ", ".join(self.link(name, f"{calls[name].failures}× {calls[name].why}") for name in failed)
            yield tag("p", tag("b", "Calls failed") + f": {links}", class_="notice")
        without = [self.link(name) for name in self.beside.without_way(nexts)]
        if without:
            how = f", since {text(self.beside.ways)} has no file of that name, though jobs wait"
            yield tag("p", tag("b", "Nobody can call") + f" {', '.join(without)}{how}", class_="notice warn")
        if self.beside.under_way:
            yield tag("p", tag("b", "A call is under way") + f": {text(', '.join(self.beside.under_way))}", class_="notice")
        for before, after in self.week.moves:
            yield tag("p", tag("b", "The clock changes") + f": {changed(before, after)}", class_="notice")

    def legend(self) -> str:
        """The shades of the grades that are limits here, and the marks."""
        whole = {"width": "100%", "height": "100%"}
        keys = []
        for mark, shade in sorted(self.strips.shades.items(), reverse=True)[:-1]:
            keys.append((tag("rect", **whole, class_="open", fill_opacity=f"{shade:.2f}"), grades(GRADES[mark - 1])))
        line, triangle = tag("line", y1="0", y2="100%"), tag("path", d="M-5 2h10L0 11z")
        keys += [
            ("", "closed"),
            (tag("rect", **whole, class_="wait"), "left alone after a call"),
            (tag("svg", line, x="50%", class_="now", overflow="visible"), "now"),
            (tag("svg", triangle, x="50%", class_="next", overflow="visible"), "next call"),
        ]
        if self.week.skipped:
            keys.append((tag("rect", **whole, class_="skipped"), "skipped by the clock"))
        return tag("ul", "".join(tag("li", tag("svg", drawn, aria_hidden="true") + f" {name}") for drawn, name in keys), class_="legend")

    def board(self) -> str:
        """Two tables and the pictures. A browser with styles puts their rows beside each other."""
        sums = self.sums
        systems = tag("th", count(len(self.spool.names), "system"), scope="row")
        waits = systems + tag("td", f"{sums.jobs:,}", class_="number", data_label="Jobs")
        waits += tag("td", self.size(sums.size), class_="number", data_label="Size")
        waits += tag("td", sums.highest, class_="grade", data_label="Grade")
        waits += tag("td", "" if sums.oldest is None else self.time(sums.oldest), data_label="Oldest job")
        calls = systems + tag("td", class_="last") + tag("td", f"{sums.failing:,}", class_="failures") + tag("td", "failed", class_="went")
        calls += tag("td", f"{sums.due:,}", class_="next-call") + tag("td", "due", class_="why")
        heads = {"System": None, "Jobs": "number", "Size": "number", "Grade": "grade", "Oldest job": None}
        tables = self.table("waits", heads, waits, self.waits, lambda name: None)
        heads = {"System": None, "Last call": "last", "Failures": "failures", "Went": "went", "Next call": "next-call", "Why": "why"}
        tables += self.table("calls", heads, calls, self.calls, self.held)
        days = tag("div", "".join(tag("span", data_label=short) for _, _, short in self.strips.names), class_="days", aria_hidden="true")
        return tag("div", tables + days + "\n" + "\n".join(map(self.figure, self.spool.names, itertools.count(2))), class_="board")

    def table(self, class_: str, heads: Heads, sums: str, cells: Callable[[str], str], held: Callable[[str], str | None]) -> str:
        """A table of the systems. The place of each row on the board is its --n."""
        head = "".join(tag("th", name, scope="col", class_=its) for name, its in heads.items())
        rows = [tag("tr", cells(name), style=f"--n:{place}", data_held=held(name)) for place, name in enumerate(self.spool.names, 2)]
        foot = tag("tfoot", tag("tr", sums, style=f"--n:{len(rows) + 2}"))
        parts = [tag("caption", _CAPTIONS[class_]), tag("thead", tag("tr", head, style="--n:1")), tag("tbody", "\n".join(rows)), foot]
        return tag("table", "\n".join(parts), class_=class_) + "\n"

    def detail(self, name: str) -> str:
        """The definition of a system, and its first jobs."""
        definition, jobs = self.spool.definitions[name], self.spool.jobs.get(name, [])
        content = time_lines(definition.lines)
        waits = [f"At most {count(definition.retries, 'failed call')} before a day is waited"]
        waits += [f"{lasting(definition.wait)} are waited after a call that succeeded"] if definition.wait else []
        waits += filter(None, [self.held(name)])
        content += tag("p", "; ".join(waits) + ".") + (self.jobs(jobs) if jobs else "")
        told = f"{count(len(definition.lines), 'time line')}, {count(len(jobs), 'job')}"
        summary = tag("summary", tag("b", text(name)) + " " + tag("small", told))
        return tag("details", summary + tag("div", content, id_=f"system-{name}"))

    def jobs(self, jobs: Sequence[Listed]) -> str:
        classes = ("number", "grade", None, None, "number", "words")
        rows = []
        for job, what in ((it.job, it.what) for it in jobs[:_SHOWN_JOBS]):
            queued, size_of = self.time(self.printed(f"{job.day} {job.hour}")), self.size(job.size)
            rows.append(row("td", (f"{job.number}", text(job.grade), text(job.user), queued, size_of, text(what)), classes))
        head = row("th", ("Job", "Grade", "User", "Queued", "Size", "What"), (*classes[:5], None))
        left = len(jobs) - _SHOWN_JOBS
        table = tag("table", tag("thead", head) + tag("tbody", "".join(rows)), class_="jobs")
        return table + (tag("p", f"and {count(left, 'job')} more behind these") if left > 0 else "")

    def listed(self, heading: str, heads: Sequence[str], classes: Sequence[str | None], rows: Sequence[Iterable[object]]) -> Iterator[str]:
        """A table of at most so many lines, under a heading, or nothing if there is no line."""
        if rows:
            body = "".join(row("td", map(text, its), classes) for its in rows[:_SHOWN_LINES])
            left = len(rows) - _SHOWN_LINES
            table = tag("table", tag("thead", row("th", heads, classes)) + tag("tbody", body))
            more = tag("p", f"and {left:,} more before these") if left > 0 else ""
            yield tag("h2", heading) + tag("section", tag("div", table + more), class_="details")

    def whole(self, refresh: int | None) -> str:
        head = tag("meta", charset="utf-8") + tag("meta", name="viewport", content="width=device-width, initial-scale=1")
        head += tag("meta", http_equiv="Content-Security-Policy", content=POLICY)
        head += tag("meta", http_equiv="refresh", content=refresh) if refresh else ""
        head += tag("title", f"{text(self.site)}: what waits, and when it can go") + f"\n<style>{STYLE}</style>"
        now = f"{self.time(self.now, '%A %Y-%m-%d %H:%M:%S')}, {offset(self.clock.ahead(self.now))}"
        top = tag("h1", text(self.site)) + tag("p", f"What waits in its UUCP spool, and when it can go. As of {now}.")
        parts = [PATTERNS, tag("header", top), self.tiles(), *self.notices(), tag("h2", "The next seven days"), self.legend(), self.board()]
        classes: tuple[str | None, ...] = (None, None, "words", "number", "number")
        parts += self.listed("Today's calls", ("Time", "System", "How it went", "Jobs gone", "Jobs come"), classes, self.beside.calls)
        classes = ("number", None, None, "words", "words")
        parts += self.listed("Refused for good", ("Job", "System", "User", "What", "Why"), classes, self.beside.refused)
        details = "\n".join(map(self.detail, self.spool.names))
        parts += [tag("h2", "Time lines and first jobs"), tag("section", details, class_="details")]
        return f'<!DOCTYPE html>\n<html lang="en">\n<head>{head}</head>\n<body>\n' + "\n".join(parts) + "\n</body>\n</html>\n"


def time_lines(lines: Sequence[Line]) -> str:
    """The time lines of a system as a table."""
    if not lines:
        return tag("p", "It has no time line, and is never called.")
    cells = ((text(grades(line.grade)), spaced(line.times), f"{line.retry} min" if line.retry else "") for line in lines)
    rows = (row("td", its, (None, "times", None)) for its in cells)
    return tag("table", tag("thead", row("th", ("May go", "When", "Retry"), (None,) * 3)) + tag("tbody", "".join(rows)))


def spaced(times: str) -> str:
    """A time string in which a line may be broken; of a long one only the beginning."""
    pieces = re.findall("[^,|]+[,|]?", times)
    left = len(pieces) - _SHOWN_PIECES
    return "<wbr/>".join(map(text, pieces[:_SHOWN_PIECES])) + (f" and {left:,} more" if left > 0 else "")


def offset(ahead: int) -> str:
    sign, minutes = "-" if ahead < 0 else "+", abs(ahead) // MINUTE
    return f"UTC{sign}{minutes // 60}" + (f":{minutes % 60:02}" if minutes % 60 else "") if minutes else "UTC"


def changed(before: int, after: int) -> str:
    """A change of the clock, in words."""
    low, high = moment(min(before, after)), moment(max(before, after))
    hour = f"the time from {low:%H:%M} to {high:%H:%M}"
    if before < after:
        return f"on {low:%A %Y-%m-%d} {hour} is skipped, and nothing is called in it"
    return f"on {low:%A %Y-%m-%d} {hour} comes twice, drawn in two halves, the first time above"
