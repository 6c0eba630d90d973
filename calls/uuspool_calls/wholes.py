"""Files that wait in pieces, as the whole that somebody gets who knows no pieces: Taylor UUCP, and whoever looks at a
list."""
import collections
from collections.abc import Iterator, Sequence

from .jobs import Job
from .pieces import Piece, name_of, whole_of
from .values import NamedTuple


class Whole(NamedTuple):
    """A job, or all pieces of a file, in their order."""

    job: Job
    parts: tuple[Job, ...]
    sum: str = ""  # of the file's bytes, if it is one in pieces

    @staticmethod
    def all_of(jobs: Sequence[Job]) -> Iterator["Whole"]:
        """These jobs, and the files of which all pieces are among them. (The rest of a file is still being queued.)"""
        files: dict[str, dict[int, Job]] = collections.defaultdict(dict)
        for job in jobs:
            piece = Piece.of(job)
            if piece is None:
                yield Whole(job, (job,))
                continue
            pieces = files[name_of(job)]
            pieces.setdefault(piece.at, job)
            if sum(it.size for it in pieces.values()) == piece.size:
                first = min(pieces.values(), key=lambda it: it.number)
                yield Whole(whole_of(first), tuple(pieces[at] for at in sorted(pieces)), piece.sum)
                del files[name_of(job)]


class Listed(NamedTuple):
    """A line of a list: a job, or a file with all of its pieces that wait. It has the number of the first of them."""

    job: Job
    rest: str = ""  # of a file: how many bytes of it don't wait

    @property
    def what(self) -> str:
        """What is to be done, as uustat shows it."""
        return self.job.what + self.rest

    @staticmethod
    def all_of(jobs: Sequence[Job]) -> list["Listed"]:
        """The lines of these jobs, in their order."""
        lots: dict[str, list[Job]] = collections.defaultdict(list)
        for job in jobs:
            lots[f"{job.system} {name_of(job)}"].append(job)
        return [Listed(whole_of(lot[0]), _rest(lot)) for lot in lots.values()]


def _rest(lot: Sequence[Job]) -> str:
    """If the last piece waits, the others have gone. Otherwise nobody knows whether they were queued."""
    pieces = [piece for job in lot if (piece := Piece.of(job))]
    size = pieces[0].size if pieces else 0
    missing = size - sum(job.size for job in lot)
    if not pieces or (not missing and len(lot) == 1):
        return ""
    has_last = any(piece.at + piece.bytes >= size for piece in pieces)
    return f", {missing} bytes {'have gone' if has_last else 'are not here'}"
