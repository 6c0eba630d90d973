"""What is queued here for a neighbour, in pieces if it is larger than a job."""
import os
from collections.abc import Callable, Iterable, Iterator, Sequence

from . import carriers
from .bundle import MOST_OF_A_JOB
from .digests import sha256
from .errors import Delay, Refusal, SpoolError
from .jobs import Job
from .pieces import SIZE, Piece
from .site import Site
from .values import NamedTuple


class Parcelled(NamedTuple):
    """What is queued: for whom, whose it is, and what is done with it there."""

    system: str
    user: str
    grade: str
    key: str  # under which it is queued once, if it is one job; or nothing, if whoever asks for it asks again after a stop
    mark: str  # of its pieces, the same if it is queued again after a stop
    words: tuple[str, ...]  # its kind, and the words of that


class Last(NamedTuple):
    """The last one of several pieces: the words of its job, and its bytes."""

    words: tuple[str, ...]
    data: bytes


class Notes(NamedTuple):
    """What whoever queues pieces keeps of that."""

    begins: Callable[[], None] = lambda: None  # comes before the first one that is queued
    has_begun: Callable[[], bool] = lambda: False  # whether that may have come before a stop
    ends: Callable[[Last], None] = lambda last: None  # comes before the last of several, when all others wait
    has_ended: Callable[[], bool] = lambda: False  # whether that came, perhaps before a stop
    last: Callable[[], Last | None] = lambda: None  # with which it came
    mark: Callable[[], str] = lambda: ""  # under which some were queued before a stop, or nothing


def queue(site: Site, what: Parcelled, content: int, notes: Notes = Notes()) -> None:
    """Queues the bytes of an open file, as a job or in pieces. SpoolError if the spool doesn't take it. No piece is queued if there isn't
    room for all.

    If a stop comes between two pieces, this is done again, and queues those that don't wait: a neighbour knows a piece that comes again. If
    the file was changed meanwhile, all of it goes, and what waits of the old one is removed. Once all but the last one were queued, none
    of them is queued again, and the last one, as it was then, is queued once by the key. By then they may have gone together to a
    neighbour with plain Taylor UUCP, or were moved, refused or killed."""
    length = int(carriers.values_of(site.session, what.system).get("piece", 0))
    is_plain = what.words[0] == "exec" or len(what.words) == 3
    line = [f"--as={what.user}", "exec", f"-g{what.grade}", "--", what.system]
    what = what._replace(mark=notes.mark() or what.mark)
    if last := notes.last():
        _ask(site, what.key, line, last.words, last.data)
    elif is_plain and os.fstat(content).st_size <= (length or MOST_OF_A_JOB):
        if notes.has_begun():
            _remove(site, _waiting(site, what).values())
        line[1], *words = what.words
        _ask(site, what.key, line, words, content)
    else:
        _queue_pieces(site, what, line, content, length or SIZE, notes)


def _queue_pieces(site: Site, what: Parcelled, line: Sequence[str], content: int, length: int, notes: Notes) -> None:
    """Queues the pieces that don't wait. If the spool had something else under the key before a stop, they are for nothing."""
    waiting = _waiting(site, what)
    has_begun = has_ended = notes.has_ended()
    if not (has_ended or waiting):
        # (Before it is read, because a file with holes has any size.)
        _expect_room(site, what, Piece("0" * 64, os.fstat(content).st_size, length, what.mark, 0, what.words))
    for piece, data in _cut(content, length, what, site.session.processes.check):
        is_last = piece.at + piece.bytes == piece.size
        if not piece.at and not has_ended:
            _remove(site, [job for its, job in waiting.items() if its.file != piece.file])
        if piece in waiting or (has_ended and not is_last):
            continue
        if not has_begun:
            _expect_room(site, what, piece)
            notes.begins()
            has_begun = True
        if is_last and piece.at and not has_ended:
            notes.ends(Last(tuple(piece.line()), data))
        try:
            _ask(site, what.key if is_last else "", line, piece.line(), data)
        except SpoolError as error:
            if is_last and error.differs:
                _remove(site, [job for its, job in _waiting(site, what).items() if its.file == piece.file])
            raise


def _waiting(site: Site, what: Parcelled) -> dict[Piece, Job]:
    """The pieces that wait of what is queued, also as it was before a stop."""
    jobs = ((Piece.of(job), job) for job in site.spool.waiting(what.system) if job.user == what.user)
    return {piece: job for piece, job in jobs if piece and (piece.mark, piece.words) == (what.mark, what.words)}


def _remove(site: Site, jobs: Iterable[Job]) -> None:
    for job in jobs:
        site.spool.kill(job)


def _ask(site: Site, key: str, line: Sequence[str], words: Sequence[str], content: int | bytes) -> None:
    """Queues a job, once if it has a key."""
    if not key:
        site.spool.ask_once(*line, *words, given=content)
        return
    site.will_forget_keys()
    site.spool.ask(*line[:3], f"--once={key}", *line[3:], *words, given=content)


def _expect_room(site: Site, what: Parcelled, first: Piece) -> None:
    """Room for the pieces from this one on. Otherwise those that fit would fill the spool, and wait without the others, while
    nobody's mail is taken. Refusal if there never is room."""
    from . import figures  # (most that is queued is no file in pieces)

    use, words = figures.use_of(site.settings), len(" ".join(first.line()))
    if not use.limit:
        return
    needed = figures.room_of(first.size - first.at, first.length, words)
    said = f"{what.words[1]} has {first.size} bytes and needs {needed} of the spool of {site.own}, which"
    if needed > use.most:
        raise Refusal(f"{said} takes {use.most} of a file at most: its limit is {use.limit}")
    if use.used + needed > use.most:
        raise Delay(f"{said} has room for {max(0, use.most - use.used)}: it goes once calls or deliveries made room, or with a larger limit in the settings")


def mark_of(job: str) -> str:
    """The mark of the pieces that a job makes, by its name."""
    return "-".join(job.split("!")[1:]).replace(".", "-")


def _cut(content: int, length: int, what: Parcelled, check: Callable[[], None]) -> Iterator[tuple[Piece, bytes]]:
    """The pieces of an open file, and the bytes of each. (Of one that grows, what it had at the beginning.) A stop ends the reading."""
    size, digest, cut, at = os.fstat(content).st_size, sha256(), sha256(), 0
    while block := os.pread(content, min(1 << 20, size - at), at):
        digest.update(block)
        at += len(block)
        check()
    for at in range(0, max(1, size), length):
        piece = Piece(digest.hexdigest(), size, length, what.mark, at, what.words)
        data = os.pread(content, piece.bytes, at)
        cut.update(data)
        if len(data) != piece.bytes:
            raise Delay(f"{what.words[1]} became shorter while it was queued")
        if at + piece.bytes == size and cut.digest() != digest.digest():
            raise Delay(f"{what.words[1]} was changed while it was queued")
        yield piece, data
