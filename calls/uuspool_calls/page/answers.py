"""What the spool answers, as values: systems, their last and next calls, and the jobs that wait."""
from collections import defaultdict
from collections.abc import Callable, Sequence
from typing import NamedTuple

from ..jobs import Job
from ..wholes import Listed
from .times import Clock, Line, shown_of

Ask = Callable[[Sequence[str]], list[str]]  # the answers to some lines


class Definition(NamedTuple):
    """A system of the sys file."""

    retries: int
    wait: int  # seconds after a call that succeeded
    lines: tuple[Line, ...]

    @property
    def calls_here(self) -> bool:
        """Whether it has the time Never, which a system has that calls this site."""
        return bool(self.lines) and all(line.times.lower() == "never" for line in self.lines)


class Call(NamedTuple):
    """How the last call of a system went."""

    failures: int
    wait: int
    outcome: str
    shown: str  # when it was, by the site's clock
    why: str


class Queue(NamedTuple):
    """The jobs of a system. A file in pieces is one."""

    jobs: int
    size: int
    highest: str
    oldest: str


class Next(NamedTuple):
    """When a system can next be called, and for which job."""

    grade: str
    number: int
    second: int | None  # None if it is never
    reason: str


class Answers:
    """What a spool answered. For each system, by name: its definition, how its last call went,
    the sums of its jobs if it has any, when it can next be called, and the jobs themselves, a file in
    pieces as one."""

    def __init__(self, answers: Sequence[str], now: int) -> None:
        systems, status, queues, when, jobs = answers
        self.definitions = definitions_of(systems)
        self.calls = {name: call for name, call in map(call_of, status.splitlines())}
        self.jobs = jobs_of(jobs)
        self.queues = {name: queue._replace(jobs=len(self.jobs[name])) for name, queue in map(queue_of, queues.splitlines())}
        self.nexts: dict[str, Next] = {}
        self.told: list[tuple[int, str]] = []  # seconds of next calls, and what the clock shows then
        for line in when.splitlines():
            name, coming, shown = next_of(line, now)
            self.nexts[name] = coming
            self.told += [(coming.second, shown)] if shown and coming.second is not None else []
        # A system may come or go between two questions.
        self.names = sorted(self.definitions.keys() & self.calls.keys())
        self.lasts: dict[str, int] = {}

    def date(self, ask: Ask, clock: Clock, now: int) -> None:
        """The second of the last call of each system, from what the clock showed. If the clock
        showed that time twice, it was the second time if the system may be called the first
        time, because a call from then on would leave it alone. The same lines are open at both."""
        called = {name: call.shown for name, call in self.calls.items() if call.outcome != "never"}
        seconds = {name: clock.seconds_of(shown_of(shown), now) for name, shown in called.items()}
        firsts = sorted({its[0] for its in seconds.values() if len(its) > 1})
        answers = ask([f"--at {second} when -a" for second in firsts]) if firsts else []
        due = {second: {line.split(" ")[0] for line in when.splitlines() if line.endswith(" due")} for second, when in zip(firsts, answers)}
        self.lasts = {name: its[-1] if name in due.get(its[0], ()) else its[0] for name, its in seconds.items()}


def definitions_of(text: str) -> dict[str, Definition]:
    """The systems of a sys file in the form that `systems` prints."""
    found: dict[str, Definition] = {}
    name = ""
    for line in text.replace("\\\n", "").splitlines():
        keyword, *words = line.split() or [""]
        keyword = keyword.lower()
        if keyword == "system":
            name = words[0]
            found[name] = Definition(26, 0, ())
        elif keyword == "max-retries":
            found[name] = found[name]._replace(retries=int(words[0]))
        elif keyword == "success-wait":
            found[name] = found[name]._replace(wait=int(words[0]))
        elif keyword in ("time", "timegrade"):
            grade = words.pop(0) if keyword == "timegrade" else "z"
            more = Line(grade, words[0], int(words[1]) if words[1:] else None)
            found[name] = found[name]._replace(lines=(*found[name].lines, more))
    return found


def call_of(line: str) -> tuple[str, Call]:
    name, failures, wait, outcome, *rest = line.split(" ")
    return name, Call(int(failures), int(wait), outcome, " ".join(rest[:2]), " ".join(rest[2:]))


def queue_of(line: str) -> tuple[str, Queue]:
    name, jobs, size, highest, day, clock = line.split(" ")
    return name, Queue(int(jobs), int(size), highest, f"{day} {clock}")


def jobs_of(text: str) -> defaultdict[str, list[Listed]]:
    """What `list` prints, by system."""
    found: defaultdict[str, list[Listed]] = defaultdict(list)
    for it in Listed.all_of([Job.read(line) for line in text.splitlines()]):
        found[it.job.system].append(it)
    return found


def next_of(line: str, now: int) -> tuple[str, Next, str]:
    name, grade, number, seconds, *rest = line.split(" ")
    second = None if seconds == "never" else now + int(seconds)
    return name, Next(grade, int(number), second, rest[-1]), " ".join(rest[:-1])
