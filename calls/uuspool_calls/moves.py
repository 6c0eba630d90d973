"""Moves of jobs from one system to another. A stopped one leaves a note, and is finished before a bundle
or a letter says anything about such a job. All pieces of a file are one move, with one note."""
import contextlib
from collections.abc import Sequence

from . import files
from .errors import LATER, Failure, SpoolError
from .jobs import Job
from .pieces import Piece, name_of, whole_of
from .refusals import NotRemoved, requeue
from .site import Site
from .values import NamedTuple
from .wholes import Whole


class NotMoved(Exception):
    """A job can't be moved, and waits for its system as before."""


class HalfMoved(Exception):
    """A job may wait for both systems until the next call of one of them."""


class Note(NamedTuple):
    """That a job, or a file in pieces, is to move: what it says, to which system, and with which words of the whole."""

    job: str
    system: str
    words: tuple[str, ...]

    @staticmethod
    def read(path: str) -> "Note | None":
        """The note in a file."""
        read = files.read_record(path)
        try:
            note = Note(str(read["job"]), str(read["system"]), tuple(map(str, read["words"])))
        except (KeyError, TypeError):
            return None
        return note if len(note.job.split(" ")) > 2 else None

    @property
    def origin(self) -> str:
        """From which system."""
        return self.job.split(" ")[1]

    def words_of(self, job: Job) -> Sequence[str]:
        """The words that a job gets."""
        piece = Piece.of(job)
        return piece._replace(words=(piece.words[0], *self.words)).line() if piece else self.words


def _named(site: Site, job: Job) -> str:
    """What stays the same of a job while it waits, and is the same of all pieces of a file. A new spool, which gives its numbers
    again, has another word."""
    what = name_of(job) if Piece.of(job) else f"{job.user} {job.size} {job.what}"
    return f"{site.word()} {job.system} {what}"


def move(site: Site, whole: Whole, system: str, words: Sequence[str]) -> None:
    """Moves a job, or all pieces of a file, to a system. The whole gets these words."""
    folder, number = f"{site.folder}/moves", whole.job.number
    note = Note(_named(site, whole.parts[0]), system, tuple(words))
    try:
        files.sync_folder(site.folder)
        files.write_record(f"{folder}/{number}", note._asdict())
    except OSError as error:
        raise NotMoved(f"it cannot be noted below {folder}: {error.strerror}") from None
    _finish(site, number, note, whole.parts)


def _left(site: Site, number: int, note: Note) -> list[Job]:
    """What a note names and still waits for its system: the job of this number, or the pieces of the file."""
    waiting = site.spool.waiting(note.origin)
    return [job for job in waiting if _named(site, job) == note.job and (job.number == number or Piece.of(job))]


def _finish(site: Site, number: int, note: Note, left: Sequence[Job]) -> None:
    has_begun = not left or sum(job.size for job in left) < whole_of(left[0]).size
    for job in left:
        try:
            if not _move_one(site, job, note):
                _take_back(site, left, note)
                break
        except NotRemoved as error:
            raise _half(note, str(error)) from None
        except SpoolError as error:
            if has_begun or not error.is_final:
                raise _half(note, str(error)) from None
            files.forget(f"{site.folder}/moves/{number}")
            raise NotMoved(str(error)) from None
        has_begun = True
    files.forget(f"{site.folder}/moves/{number}")


def _move_one(site: Site, job: Job, note: Note) -> bool:
    """Moves a job, unless its user removed it meanwhile."""
    parcel = site.spool.show(job.number)
    queued = requeue(site, parcel, note.system, note.words_of(job)) if parcel else ""
    if queued:
        site.log.note(note.system, job.user, queued.split()[1], "moved", f"from {job.system}, where it was job {job.number}")
    return queued != ""


def _take_back(site: Site, left: Sequence[Job], note: Note) -> None:
    """A user removed some pieces of a file while it moved. So the others go, too, those that have moved and those that haven't."""
    piece = Piece.of(left[0])
    if piece:
        name = piece._replace(words=(piece.words[0], *note.words)).name(f"{note.system} {left[0].user}")
        for job in (*left, *(it for it in site.spool.waiting(note.system) if name_of(it) == name)):
            site.spool.kill(job)


def _half(note: Note, said: str) -> HalfMoved:
    return HalfMoved(f"it may wait for both {note.origin} and {note.system} until the next call of one of them: {said}")


def finish_all(site: Site, neighbour: str = "") -> None:
    """Finishes the moves from and to a neighbour, or all of them."""
    names = list(filter(str.isdecimal, files.names_in(f"{site.folder}/moves")))
    with site.alone() if names else contextlib.nullcontext():
        for name in names:
            _finish_of(site, int(name), neighbour)


def _finish_of(site: Site, number: int, neighbour: str) -> None:
    note = Note.read(f"{site.folder}/moves/{number}")
    if note is None or neighbour not in ("", note.system, note.origin):
        return
    try:
        _finish(site, number, note, _left(site, number, note))
    except NotMoved:
        return
    except (HalfMoved, SpoolError) as error:
        raise Failure(LATER, f"job {number} is half moved: {error}") from None
