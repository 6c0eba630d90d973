"""How often a spool was put back. A file beside it has a line for each time: the next number of the copy, the greater one that
the next job got instead, and by which word the log names that time. Jobs with numbers between them were given up then. A neighbour that
calls another job with a smaller number `Stale` had it before, or it was killed here before.

The file takes its place with the spool, in one step. So it has the word of a time if, and only if, the spool was put back then."""
from collections.abc import Iterable

from . import files
from .digests import sha256
from .texts import is_number
from .values import NamedTuple

NAME = "restored"  # of the file
_MOST = 1 << 16  # bytes of it


class Time(NamedTuple):
    """A time when a spool was put back."""

    first: int  # of the numbers that were given up then
    end: int  # the next number, which isn't one of them
    word: str = ""  # nothing if it was done by hand


def times_in(text: str) -> list[Time]:
    """Each time. None if a line doesn't begin with two numbers, because then nobody knows which were given up."""
    lines = [line.split() for line in text.splitlines()]
    if len(text) > _MOST or not all(2 <= len(words) <= 3 and all(map(is_number, words[:2])) for words in lines):
        return []
    return [Time(int(first), int(end), *word) for first, end, *word in lines]


def text_of(times: Iterable[Time]) -> str:
    """A text for the file, in which no line stands twice."""
    return "".join(f"{it.first} {it.end} {it.word}".rstrip() + "\n" for it in dict.fromkeys(times))


def was_done(folder: str, number: int) -> bool:
    """Whether a job of the spool in a folder was done before, if its neighbour calls it `Stale`: it has been in a copy that was put
    back, and its number wasn't given up with a spool that had been put back before."""
    times = times_in((files.read_bytes(f"{folder}/{NAME}", _MOST + 1) or b"").decode(errors="replace"))
    return bool(times) and number < times[-1].end and not any(it.first <= number < it.end for it in times)


def state(folder: str) -> str:
    """What differs if the spool in a folder was put back meanwhile; nothing if it never was."""
    text = files.read_end(f"{folder}/{NAME}", _MOST)
    return sha256(text).hexdigest()[:16] if text else ""
