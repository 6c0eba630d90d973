"""What is beside a spool: its log, the locks of calls, and the jobs that were refused."""
import os
import re
from collections import defaultdict
from collections.abc import Iterable, Iterator, Sequence
from contextlib import suppress
from typing import NamedTuple

from ..files import names_in, read_end
from ..pieces import FILE, UNTOLD
from ..refusals import WAITING, Kept, newest_first
from .times import HOUR, MINUTE

_READ_LOG = 4 << 20  # bytes of a log, from its end


class Made(NamedTuple):
    """A call of today, and how many jobs it moved."""

    clock: str
    system: str
    how: str
    gone: int
    came: int


class Beside:
    """What is in the folder of a spool: how today's calls went, according to the log; whose call
    is under way; which jobs were refused for good, the last first; and how systems are called."""

    def __init__(self, folder: str, log: str, ways: str, own: str, today: str) -> None:
        self.own = own
        self.calls = calls_of(log_of(os.path.realpath(log), today), own)
        self.under_way = sorted(under_way(f"{folder}/calls"))
        self.refused = list(refused_in(f"{folder}/refused"))
        self.ways = ways if os.path.isdir(ways) else ""

    def without_way(self, names: Iterable[str]) -> Iterator[str]:
        """The systems that no file says how to call. The site's own jobs are delivered."""
        if self.ways:
            yield from (name for name in names if name != self.own and not os.path.isfile(f"{self.ways}/{name}"))


def log_of(log: str, today: str) -> list[list[str]]:
    """The lines of this date in a log, or in the one before. At most the end of a long log is
    read. (A power cut may leave a line that isn't whole.)"""
    lines: list[str] = []
    for name in log, earlier_of(log):
        lines = read_end(name, _READ_LOG).decode("ascii", errors="replace").splitlines() + lines
        if lines and not lines[0].startswith(today):
            break
    whole = re.compile(rf"{today} \d\d:\d\d:\d\d (\S+ ){{4}}")
    return [line.split(" ") for line in lines if whole.match(line)]


def earlier_of(log: str) -> str:
    """The log before this one: log.1, or the newest with a date, which other lines for logrotate than the package's make."""
    folder, name = os.path.split(log)
    dated = [it for it in names_in(folder) if re.fullmatch(rf"{re.escape(name)}-[0-9]{{8}}", it)]
    return f"{folder}/{dated[-1]}" if dated and not os.path.isfile(f"{log}.1") else f"{log}.1"


def calls_of(lines: Iterable[Sequence[str]], own: str) -> list[Made]:
    """The calls in a log. Each job that leaves or comes has a line of its own, and the last line
    of a call is `done` or `failed`. One `done` for each job is one call if less than a minute
    lies between them."""
    calls: list[Made | None] = []
    places: dict[str, int] = {}  # of each system's last one
    moved: defaultdict[str, list[int]] = defaultdict(lambda: [0, 0])
    for _, clock, system, _, job, how, what, *words in lines:
        if system == own:
            continue
        if how == "done" and job != "-" and what in ("done", "settle", "unpack"):
            moved[system][what == "unpack"] += 1
        went = {("done", "done"): "done", ("done", "failed"): "failed: " + " ".join(words[1:])}.get((how, what))
        went = "called here" if how == "answered" else "not set up" if how == "not-set-up" else went
        if went:
            last = calls[places[system]] if system in places else None
            gone, came = moved.pop(system, (0, 0))
            if went == "done" and last and last.how == "done" and of_day(clock) - of_day(last.clock) < MINUTE:
                calls[places[system]] = None
                gone, came = gone + last.gone, came + last.came
            places[system] = len(calls)
            calls.append(Made(clock, system, went, gone, came))
    return [call for call in reversed(calls) if call]


def of_day(clock: str) -> int:
    """The second of the day, of a time of day."""
    hours, minutes, seconds = clock.split(":")
    return HOUR * int(hours) + MINUTE * int(minutes) + int(seconds)


def under_way(folder: str) -> Iterator[str]:
    """The systems whose lock a process holds: NAME.lock. The lock is only looked up, not tried,
    because a call that begins just then would find it held."""
    with suppress(OSError), open("/proc/locks", encoding="ascii") as file, open("/proc/self/mountinfo", "rb") as mounts:
        taken = [f":{line.split()[-3]}" for line in file if " FLOCK " in line and "->" not in line]
        devices = {line.split()[2].decode() for line in mounts}
        for name in os.listdir(folder):
            if name.endswith(".lock") and any(it.endswith(place_of(os.stat(f"{folder}/{name}"), devices)) for it in taken):
                yield name.removesuffix(".lock")


def place_of(status: os.stat_result, devices: set[str]) -> str:
    """A file as /proc/locks names it: its device and its inode number. If no mount has the device,
    as on btrfs, only the number is compared."""
    major, minor = os.major(status.st_dev), os.minor(status.st_dev)
    return f":{major:02x}:{minor:02x}:{status.st_ino}" if f"{major}:{minor}" in devices else f":{status.st_ino}"


def refused_in(folder: str) -> Iterator[Sequence[str]]:
    """What was refused for good: the number, system, user and words of each, and why it was refused. The pieces of a file
    are one line."""
    shown = set()
    for path, *_ in newest_first(folder):
        kept = Kept.read(path)
        if kept and kept.name not in shown:
            shown.add(kept.name)
            yield _number_of(kept), kept.job.system, kept.job.user, kept.job.what, kept.reason


def _number_of(kept: Kept) -> str:
    """The name of what is kept, which is a number. A file that came in pieces has that of its first piece, if it is known."""
    name = os.path.basename(kept.path).removesuffix(WAITING).removesuffix(UNTOLD)
    return name if not name.endswith(FILE) else str(kept.number or "-")
