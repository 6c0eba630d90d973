"""The time, and what a site's clock shows."""
import contextlib
import os
import time
from collections.abc import Iterator


def now() -> int:
    """The seconds since 1970."""
    return int(time.time())


def running() -> float:
    """The seconds since the machine started. Setting the clock doesn't change them."""
    return time.clock_gettime(time.CLOCK_BOOTTIME)


def boot() -> str:
    """What tells this start of the machine from others, or nothing."""
    with contextlib.suppress(OSError), open("/proc/sys/kernel/random/boot_id", encoding="ascii") as file:
        return file.read().strip()
    return ""


def shown(zone: str, seconds: int) -> str:
    """The date and time of day that a clock of this zone shows, a rule as in the variable TZ."""
    with _in_zone(zone):
        return time.strftime("%Y-%m-%d %H:%M:%S", time.localtime(seconds))


def seconds(zone: str, moment: str) -> int:
    """When a clock of this zone shows a date and time of day. (An hour that it shows twice is one of the two.)"""
    year, month, day, hour, minute, second = map(int, moment.replace("-", " ").replace(":", " ").split())
    with _in_zone(zone):
        return int(time.mktime((year, month, day, hour, minute, second, 0, 0, -1)))


@contextlib.contextmanager
def _in_zone(zone: str) -> Iterator[None]:
    before = os.environ.get("TZ")
    try:
        os.environ["TZ"] = zone
        time.tzset()
        yield
    finally:
        del os.environ["TZ"]
        if before is not None:
            os.environ["TZ"] = before
        time.tzset()


def rule_of_machine(path: str = "/etc/localtime") -> str:
    """The rule of the machine's clock, as in the variable TZ: the last line of its file of a zone. UTC if there is
    none."""
    with contextlib.suppress(OSError), open(path, "rb") as file:
        head, _, rule = file.read().removesuffix(b"\n").rpartition(b"\n")
        if head.startswith(b"TZif") and rule.isascii() and rule:
            return rule.decode()
    return "UTC0"


def agree(zone: str, other: str, moment: int) -> bool:
    """Whether two clocks show the same, in this month and half a year later."""
    return all(shown(zone, it) == shown(other, it) for it in (moment, moment + 183 * 86400))
