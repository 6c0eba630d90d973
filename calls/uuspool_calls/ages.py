"""How long files and folders lie unchanged, by a look at them once an hour. A look adds the time that passed since the one
before while the machine ran, whatever its clock shows. If the machine was started in between, nobody knows how long it was off. Then
the look adds what the clock shows, but a day at most. So a wrong clock makes nothing old, and what lies in a machine that is often off
becomes old later."""
import contextlib
from collections.abc import Mapping, Sequence

from . import clock, files
from .values import Any

_DAY = 86400
_MOST_OFF = _DAY
_MOST_OF_A_RECORD = 1 << 27  # bytes; each thing has some hundred


class Ages:
    """What the looks saw until now, this one included: for each path when it was changed, and the time at the first look after
    that."""

    def __init__(self, time: int, seen: Mapping[str, Sequence[int]]) -> None:
        self._time, self._seen = time, seen

    @staticmethod
    def look(record: str, paths: Sequence[str]) -> "Ages":
        """Looks at these, and keeps that in a record. (What doesn't fit on a full disk is seen by the next look.)"""
        kept = files.read_record(record, _MOST_OF_A_RECORD)
        now, running, boot = clock.now(), clock.running(), clock.boot()
        time = _time_in(kept) + _passed(kept, now, running, boot)
        before = kept["seen"] if isinstance(kept.get("seen"), dict) else {}
        seen = {path: _since(before.get(path), changed, time) for path in paths if (changed := _changed(path)) is not None}
        with contextlib.suppress(OSError):
            files.write_record(record, {"time": time, "now": now, "running": running, "boot": boot, "seen": seen})
        return Ages(time, seen)

    def is_old(self, path: str, days: int) -> bool:
        """Whether it is there, as a look found it so many days ago."""
        changed, since = self._seen.get(path, (None, 0))
        return changed is not None and changed == _changed(path) and self._time - since >= days * _DAY


def _time_in(kept: Mapping[str, Any]) -> int:
    return int(kept["time"]) if isinstance(kept.get("time"), int) else 0


def _passed(kept: Mapping[str, Any], now: int, running: float, boot: str) -> int:
    """How many seconds passed since the last look."""
    if not isinstance(kept.get("now"), int) or not isinstance(kept.get("running"), float):
        return 0
    if kept.get("boot") == boot != "":
        return max(0, int(running - kept["running"]))
    return min(max(0, now - int(kept["now"])), _MOST_OFF)


def _changed(path: str) -> int | None:
    seen = files.look(path, follows=False)
    return seen and seen.st_mtime_ns


def _since(before: Any, changed: int, time: int) -> Sequence[int]:
    """What is known of a thing that was changed then: what an earlier look saw, unless it was changed since."""
    if isinstance(before, list) and [type(it) for it in before] == [int, int] and before[0] == changed and before[1] <= time:
        return before
    return changed, time
