"""Bundles: the text that sites exchange, as uuspool-bundle(5) has it. The program makes and reads
those of a spool. This reader is for carriers, which have to know whether jobs are in one."""
from collections.abc import Iterator

from .digests import sha256
from .texts import is_digits, is_name, is_number, is_word
from .values import NamedTuple

MOST = 4_273_224  # bytes of a bundle, which may be sealed
MOST_UNSEALED = 4_194_304
MOST_OF_A_JOB = 1_048_576
_PIECE = rb"piece ([0-9]{1,4}) [0-9a-f]{64}\n"
_MOST_DIGITS = 19  # of a mark
_MOST_OF_AN_ABOUT = 20  # bytes of a kind of record and a number


def mark(text: bytes) -> int:
    """The first 63 bits of a text's SHA-256."""
    return int.from_bytes(sha256(text).digest()[:8], "big") >> 1


def said_in(text: bytes) -> bytes:
    """What a bundle says, which may be sealed. The seal isn't checked: only the program does that."""
    if not text.startswith(b"sealed "):
        return text
    import re  # (loaded late, since few bundles are sealed)

    pieces, place = [], text.find(b"\n") + 1
    piece = re.compile(_PIECE)
    while place and (line := piece.match(text, place)):
        place = line.end() + int(line[1]) + 1
        pieces.append(text[line.end() : place - 1])
    return b"".join(pieces)


def grade_wanted(text: bytes) -> str:
    """The lowest grade of the jobs that a bundle asks for, or nothing if its first line isn't that of a bundle."""
    line = said_in(text).partition(b"\n")[0]
    words = line.decode(errors="replace").split(" ")
    is_head = len(words) == 7 and words[0] == "bundle" and is_name(words[1]) and is_name(words[2]) and is_number(words[4])
    return words[5] if is_head and len(words[5]) == 1 and words[6] == str(mark(line.rpartition(b" ")[0])) else ""


class Offer(NamedTuple):
    """A job in a bundle."""

    number: int
    mark: int
    grade: str
    user: str
    kind: str
    words: tuple[str, ...]
    data: bytes


def offers_in(text: bytes) -> Iterator[Offer]:
    """The jobs in a bundle, up to the first record that isn't whole."""
    return (offer for _, offer in _placed(said_in(text)))


def ends_in(text: bytes) -> Iterator[tuple[int, int]]:
    """Where each job ends in a bundle, and its number. (About where, if it is sealed.)"""
    said = said_in(text)
    return ((end * len(text) // len(said), offer.number) for end, offer in _placed(said))


def _records(text: bytes) -> Iterator[tuple[int, int, Offer | None]]:
    """Where each record in what a bundle says begins and ends, up to the first that isn't whole, and its job, if it has one."""
    end = text.find(b"\n") + 1
    while end and (line_end := text.find(b"\n", end)) >= 0:
        begin, end, offer = end, line_end + 1, None
        if not text.startswith((b"has ", b"no "), begin):
            words = text[begin:line_end].decode(errors="surrogateescape").split(" ")
            if (offer := _offer(words, text, end)) is None:
                return
            end += len(offer.data) + 1
        yield begin, end, offer


def _placed(text: bytes) -> Iterator[tuple[int, Offer]]:
    """The jobs in what a bundle says, each with its end."""
    return ((end, offer) for _, end, offer in _records(text) if offer)


def _offer(words: list[str], text: bytes, place: int) -> Offer | None:
    if len(words) < 8 or words[0] != "job" or not (is_number(words[1]) and is_digits(words[2], _MOST_DIGITS) and is_number(words[5])):
        return None
    if not all(map(is_word, (words[4], *words[7:]))):
        return None
    size = int(words[5])
    data = text[place : place + size]
    if size > MOST_OF_A_JOB or len(data) < size or text[place + size : place + size + 1] != b"\n":
        return None
    return Offer(int(words[1]), int(words[2]), words[3], words[4], words[6], tuple(words[7:]), data)


def front(text: bytes, most: int) -> bytes:
    """A bundle without what stands behind so many jobs, or behind the first record that says again what becomes of a job: it
    counts as one that was cut off. (The log has a line for each record. A bundle that is sealed ends with a whole piece, so a
    few more may be in it.)"""
    said = said_in(text)
    end = _end_of_front(said, most)
    if end is None:
        return text
    return said[:end] if said is text else text[: _end_in_pieces(text, end)]


def _end_of_front(said: bytes, most: int) -> int | None:
    may_have = said.count(b"\njob ")  # (a job's bytes may have such lines)
    if may_have < 2 and b"\nno " not in said:
        return None
    known: set[bytes] = set()
    jobs, end = 0, said.find(b"\n") + 1
    for begin, end, offer in _records(said):
        if said.startswith(b"has ", begin):
            continue  # (the program skips one whose number doesn't rise)
        about = b" ".join(said[begin : begin + _MOST_OF_AN_ABOUT].split(b" ", 2)[:2])
        if about in known or (offer and jobs == most):
            return begin
        known.add(about)
        jobs += offer is not None
    return end if may_have > most and said[end:] != b"end\n" else None


def _end_in_pieces(text: bytes, length: int) -> int:
    """Where the piece ends with which a sealed bundle says so many bytes."""
    import re

    piece, place, said = re.compile(_PIECE), text.find(b"\n") + 1, 0
    while said < length and (line := piece.match(text, place)):
        place = line.end() + int(line[1]) + 1
        said += int(line[1])
    return place


def has_line(text: bytes, *words: bytes) -> bool:
    """Whether a line of a bundle may begin with one of these words. (A job's bytes may have such a line.)"""
    said = said_in(text)
    return any(b"\n%s " % word in said for word in words)


def has_jobs(text: bytes) -> bool:
    """Whether a job is in a bundle."""
    return next(offers_in(text), None) is not None


def last_job(text: bytes) -> int | None:
    """The number of the last job in a bundle."""
    numbers = [offer.number for offer in offers_in(text)]
    return numbers[-1] if numbers else None


def bound(most: int) -> list[str]:
    """The option of `pack` and `answer` for a bundle of so many bytes, or 0 for none."""
    return [f"--most={most}"] if most else []
