"""How much calls carry, and how fast."""
from . import bundle
from .contacts import Contact
from .values import NamedTuple

_ENOUGH = 10_000  # bytes of a call that says how fast the line is
_BUNDLES = 4  # of both ways, in a call whose line falls
_LEAST_BUNDLE = 65536
_UNITS = ((86400, "d"), (3600, "h"), (60, "min"), (1, "s"))
_SIZES = ((1_000_000_000, "GB"), (1_000_000, "MB"), (1000, "kB"))


class Traffic(NamedTuple):
    """What a call carried: bytes there and back, and in how many seconds."""

    went: int = 0
    came: int = 0
    seconds: float = 0.0

    def more(self, went: int, came: int, seconds: float) -> "Traffic":
        """With what one more exchange carried."""
        return Traffic(self.went + went, self.came + came, self.seconds + seconds)

    @property
    def total(self) -> int:
        """Bytes both ways."""
        return self.went + self.came

    @property
    def rate(self) -> float:
        """Bytes in a second."""
        return self.total / max(self.seconds, 0.001)

    def next_most(self, before: int, fell: bool) -> int:
        """The most bytes of a bundle in the next call, 0 for as many as it may have. If the line fell, a call
        of this length brings a few such bundles whole, each way. With each call in which it didn't, twice as many go."""
        if not fell:
            most = 2 * before
        elif self.total:
            most = max(_LEAST_BUNDLE, self.total // _BUNDLES)
        else:
            most = before
        return most if most < bundle.MOST_UNSEALED else 0

    def __str__(self) -> str:
        return f"{self.went} bytes went, {self.came} came in {self.seconds:.1f} s, {self.rate:.0f} bytes/s"

    def added(self, contact: Contact) -> dict[str, int | float]:
        """What is kept of the last calls after this one. One that carried little tells more of the time in which a
        line is built up than of the line, so it changes nothing."""
        if self.total < _ENOUGH:
            return {}
        return {"bytes": contact.bytes // 2 + self.total, "seconds": contact.seconds / 2 + self.seconds}


def rate_of(contact: Contact) -> float:
    """Bytes in a second of the last calls, or 0 if none says it."""
    return contact.bytes / max(contact.seconds, 0.001)


def shown_jobs(count: int) -> str:
    """A number of jobs for a person."""
    return f"{count} job{'' if count == 1 else 's'}"


def shown_size(count: float) -> str:
    """Bytes for a person, with two digits at least."""
    size, unit = next((it for it in _SIZES if count >= it[0]), (1, "B"))
    return f"{count / size:.{1 if size > 1 and count < 10 * size else 0}f} {unit}"


def shown_time(seconds: float) -> str:
    """A time for a person, in its two largest units."""
    rest = max(1, round(seconds))
    parts: list[tuple[int, str]] = []
    for size, unit in _UNITS:
        count, rest = divmod(rest, size)
        if count or parts:
            parts.append((count, unit))
    return " ".join(f"{count} {unit}" for count, unit in parts[:2] if count)
