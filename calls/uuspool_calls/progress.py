"""A line on a terminal that says how far a call is."""
import contextlib
import os
from collections.abc import Sequence

from . import bundle, clock
from .files import write_all
from .jobs import Job
from .traffic import Traffic, shown_jobs, shown_size, shown_time

_OFTEN = 0.5  # seconds between two looks at a bundle
_CLEAR = b"\r\x1b[K"
_COLUMNS = 80


class Progress:
    """The line. It is rewritten while a bundle goes and one comes, and removed after each exchange."""

    def __init__(self, handle: int, neighbour: str, waiting: Sequence[Job]) -> None:
        self._handle, self._neighbour = handle, neighbour
        self._left = {job.number: job.size for job in waiting}  # of the jobs that are to go, and aren't there yet
        self._before = Traffic()
        self._went = self._came = 0  # jobs, of earlier bundles
        self._ends: list[tuple[int, int]] = []  # of the jobs in our bundle
        self._begun = self._looked = 0.0

    def begin(self, ours: bytes) -> None:
        """This bundle begins to go."""
        self._begun, self._looked, self._ends = clock.running(), 0.0, list(bundle.ends_in(ours))

    def watch(self, read: int, output: bytearray) -> None:
        """So much of our bundle has gone, and this came."""
        now = clock.running()
        if now - self._looked < _OFTEN:
            return
        self._looked = now
        there = {number for end, number in self._ends if end <= read}
        here = sum(1 for _ in bundle.offers_in(bytes(output)))
        traffic = self._before.more(read, len(output), now - self._begun)
        self._write(self._line(traffic, there, self._came + here))

    def end(self, traffic: Traffic) -> None:
        """The exchange is over, and so much has gone and come in this call."""
        self._write("")
        self._before = traffic

    def count(self, there: Sequence[int], came: int) -> None:
        """These of our jobs are there now, and so many came."""
        for number in there:
            self._left.pop(number, None)
        self._went += len(there)
        self._came += came

    def _line(self, traffic: Traffic, there: set[int], came: int) -> str:
        left = [size for number, size in self._left.items() if number not in there]
        sent = f"{self._neighbour}: sent {shown_jobs(self._went + len(there))} {shown_size(traffic.went)}"
        parts = [sent, f"got {shown_jobs(came)} {shown_size(traffic.came)}", f"{shown_size(traffic.rate)}/s"]
        if left:
            time = shown_time(sum(left) / traffic.rate) if traffic.total else ""
            parts.append(f"left {shown_jobs(len(left))} {shown_size(sum(left))} {time}")
        return ", ".join(parts)

    def _write(self, line: str) -> None:
        """In the place of the line before. One that is longer than the terminal would stay. If the terminal is gone, the
        call goes on without it."""
        with contextlib.suppress(OSError):
            columns = os.get_terminal_size(self._handle).columns or _COLUMNS
            write_all(self._handle, _CLEAR + line[: columns - 1].encode())
