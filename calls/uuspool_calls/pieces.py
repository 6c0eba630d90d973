"""Files, and inputs of commands, that are larger than a job: each comes as several jobs, in any order, and is then
delivered as one.

    uuspool-piece SUM.SIZE.LENGTH.MARK PLACE send FROM TO [-m] [-nUSER]
    uuspool-piece SUM.SIZE.LENGTH.MARK PLACE exec COMMAND [WORD..]

SUM is the SHA-256 of the whole and SIZE its bytes. A piece has LENGTH bytes, unless it is the last one, and begins at
PLACE. MARK differs each time that something is queued, so what a kill left of one try never mixes with the next. (An
older site says `SUM SIZE NUMBER TO`, and its pieces have 1,000,000 bytes.)

A file that comes is a folder. `whole` has its beginning, and grows when the next piece comes. `front` says how many bytes of it are on
the disk. What comes earlier is a file named by its place. So no piece takes longer than another one, and no more is kept than came, whatever a piece
claims."""
import contextlib
import os
from collections.abc import Callable, Iterator, Sequence

from . import files
from .bundle import MOST_OF_A_JOB
from .digests import sha256
from .errors import Delay, Refusal
from .jobs import Job
from .texts import is_number, is_sum
from .values import Any, NamedTuple

COMMAND = "uuspool-piece"
SIZE = 1_000_000  # bytes of a piece, unless the neighbour's entry names others
DAYS = 30  # after the newest piece
FILE = ".file"  # ends the name of the folder of a file that is refused
UNTOLD = ".untold"  # behind it, while nobody was told
_FREE = 20  # a part of the disk stays free of pieces: one of so many
_MOST_DIGITS = 18  # of a size or a place
_MOST_OF_A_MARK = 64
ABOUT, _WHOLE = "about", "whole"
_FRONT = "front"  # how many bytes of the whole are on the disk
_WORKS = "works"  # says which process works on the whole
_CAME = "came"  # becomes ABOUT once the whole is delivered, if the disk is full then

IsOld = Callable[[str, int], bool]  # whether what a path names lies unchanged for so many days


class Piece(NamedTuple):
    """A piece of a file."""

    sum: str
    size: int  # bytes of the file
    length: int  # of a piece
    mark: str
    at: int
    words: tuple[str, ...]  # what is done with the whole: a kind, and its words

    @staticmethod
    def read(words: Sequence[str]) -> "Piece | None":
        """The piece that the words of a command name."""
        piece = None
        if len(words) == 5 and words[0] == COMMAND and is_sum(words[1]):
            piece = _read_old(*words[1:])
        elif len(words) > 4 and words[0] == COMMAND:
            piece = _read(words[1].split("."), words[2], words[3:])
        return piece if piece and piece._is_right() else None

    @staticmethod
    def of(job: Job) -> "Piece | None":
        """The piece that a job is."""
        return Piece.read(job.words) if job.kind == "exec" else None

    def _is_right(self) -> bool:
        is_known = self.words[0] == "exec" or (self.words[0] == "send" and len(self.words) >= 3)
        return is_known and self.at % self.length == 0 and self.at < max(1, self.size)

    def line(self) -> list[str]:
        """The words of its command."""
        return [COMMAND, self.file, str(self.at), *self.words]

    @property
    def file(self) -> str:
        """What is the same of all pieces."""
        return f"{self.sum}.{self.size}.{self.length}.{self.mark}"

    @property
    def bytes(self) -> int:
        """How many it has."""
        return min(self.length, self.size - self.at)

    @property
    def total(self) -> int:
        """How many pieces there are."""
        return max(1, -(-self.size // self.length))

    @property
    def place(self) -> str:
        """Which it is."""
        return f"piece {self.at // self.length + 1} of {self.total}"

    def name(self, user: str) -> str:
        """The name of the folder for a user's file."""
        return sha256("\0".join((user, self.file, *self.words)).encode(errors="surrogateescape")).hexdigest()[:32]


def _read(file: Sequence[str], at: str, words: Sequence[str]) -> Piece | None:
    if len(file) != 4 or not is_sum(file[0]) or not all(is_number(it, _MOST_DIGITS) for it in (*file[1:3], at)):
        return None
    is_mark = file[3].isascii() and file[3].replace("-", "").replace(":", "").isalnum() and len(file[3]) <= _MOST_OF_A_MARK
    if not is_mark or not 0 < int(file[2]) <= MOST_OF_A_JOB:
        return None
    return Piece(file[0], int(file[1]), int(file[2]), file[3], int(at), tuple(words))


def _read_old(sum_of: str, size: str, number: str, to: str) -> Piece | None:
    if not is_number(size) or not is_number(number):
        return None
    return Piece(sum_of, int(size), SIZE, "", int(number) * SIZE, ("send", to, to))


def name_of(job: Job) -> str:
    """What a job is called beside the others: pieces of a file have one name, and any other job its number."""
    piece = Piece.of(job)
    return piece.name(f"{job.system} {job.user}") if piece else str(job.number)


def folder_of(job: Job) -> str:
    """Where what came of the file of a piece is kept, below the folder of all senders."""
    piece = Piece.of(job)
    return f"{job.sender or job.system}/{piece.name(job.user)}" if piece else ""


def whole_of(job: Job) -> Job:
    """A job, or that of the whole file if it is a piece."""
    piece = Piece.of(job)
    if piece is None:
        return job
    kind, *words = piece.words
    return job._replace(size=piece.size, kind=kind, words=tuple(words))


def together(job: Job, others: Sequence[Job]) -> list[Job]:
    """A job with the other pieces of its file among these."""
    name = name_of(job)
    return [job, *(it for it in others if it.number != job.number and it.system == job.system and name_of(it) == name)]


class About(NamedTuple):
    """What is kept about a file of which pieces came."""

    piece: Piece
    user: str
    job: str = ""  # the name of the job that brought the first one, if that is known
    came: str = ""  # the name of the job with which it was delivered
    what: str = ""  # what was delivered then
    why: str = ""  # it is refused

    @staticmethod
    def read(folder: str, name: str = ABOUT) -> "About | None":
        """What a folder says."""
        kept = files.read_record(f"{folder}/{name}")
        try:
            if "to" in kept:
                return _adopted(folder, str(kept["user"]), str(kept["to"]), int(kept["size"]))
            sum_of, size, length, mark, at, words = kept.pop("piece")
            return About(Piece(str(sum_of), int(size), int(length), str(mark), int(at), tuple(map(str, words))), **kept)
        except (KeyError, TypeError, ValueError, IndexError):
            return None

    def came_with(self, job: str) -> bool:
        """Whether it was delivered with the job of this name. (What the site's clock shows of the job may have changed.)"""
        return self.came == job or self.came.rpartition("!")[0] == job.rpartition("!")[0] != ""

    def record(self) -> dict[str, Any]:
        """What is written of it."""
        return {name: value for name, value in self._asdict().items() if value}

    def write(self, folder: str, name: str = ABOUT) -> None:
        """Keeps it."""
        files.write_record(f"{folder}/{name}", self.record())


def _adopted(folder: str, user: str, to: str, size: int) -> About:
    """A folder of an older version, whose pieces are named by their numbers."""
    piece = _read_old(os.path.basename(folder)[:64], str(size), "0", to)
    if piece is None:
        raise ValueError
    files.remove(f"{folder}/{_WHOLE}")
    for number in sorted((int(name) for name in files.names_in(folder) if name.isdecimal()), reverse=True):
        if number < SIZE:  # (otherwise it has its new name since an earlier try)
            os.rename(f"{folder}/{number}", f"{folder}/{number * SIZE}")
    about = About(piece, user)
    about.write(folder)
    return about


class File:
    """A file of which pieces come."""

    def __init__(self, folder: str, about: About, is_refused: bool = False) -> None:
        self.folder, self.about, self.is_refused = folder, about, is_refused
        self.working = working_in(folder)

    def take(self, piece: Piece, content: int) -> None:
        """Keeps a piece. Refusal if it can be none of this file."""
        if os.fstat(content).st_size != piece.bytes:
            raise Refusal(f"{piece.place} of {piece.words[-1]} has {os.fstat(content).st_size} bytes, not {piece.bytes}")
        _expect_room(self.folder)
        with self._whole(os.O_RDWR | os.O_CREAT) as whole:
            front = self._front(whole)
            if piece.at == front:
                self._append(whole, front, content)
            elif piece.at < front:
                _expect_same(piece, content, whole, piece.at)
            else:
                self._keep_early(piece, content)
            self._append_early(whole)
        os.utime(self.folder)

    def _whole(self, flags: int) -> contextlib.AbstractContextManager[int]:
        return files.opened(f"{self.folder}/{_WHOLE}", flags | os.O_NOFOLLOW)

    def _front(self, whole: int) -> int:
        """The first place that is missing. What is behind the last whole piece was cut off by a stop. How much is on the disk is noted behind
        each piece, because a power cut may leave places without their bytes. (An older version noted nothing.)"""
        size, piece, noted = os.fstat(whole).st_size, self.about.piece, files.read_bytes(f"{self.folder}/{_FRONT}", _MOST_DIGITS)
        if noted is not None and noted.isdigit():
            size = min(size, int(noted))
        return size if size >= piece.size else size - size % piece.length

    def _append(self, whole: int, front: int, content: int) -> None:
        os.ftruncate(whole, front)
        os.lseek(whole, front, os.SEEK_SET)
        files.copy_all(content, whole)
        os.fsync(whole)
        files.replace(f"{self.folder}/{_FRONT}", b"%d" % os.fstat(whole).st_size)

    def _keep_early(self, piece: Piece, content: int) -> None:
        path = f"{self.folder}/{piece.at}"
        if os.path.exists(path):
            with files.opened(path) as before:
                _expect_same(piece, content, before, 0)
        else:
            files.replace(path, content)

    def _append_early(self, whole: int) -> None:
        while os.path.exists(path := f"{self.folder}/{(front := self._front(whole))}"):
            with files.opened(path) as piece:
                self._append(whole, front, piece)
            os.remove(path)

    def is_whole(self) -> bool:
        """Whether all pieces are here."""
        with contextlib.suppress(FileNotFoundError), self._whole(os.O_RDONLY) as whole:
            return self._front(whole) >= self.about.piece.size
        return False

    @contextlib.contextmanager
    def opened(self) -> Iterator[int]:
        """The open file of the whole. Refusal if it isn't what was queued."""
        with self._whole(os.O_RDONLY) as whole:
            digest, place = sha256(), 0
            while block := os.pread(whole, 1 << 20, place):
                digest.update(block)
                place += len(block)
            if digest.hexdigest() != self.about.piece.sum:
                raise Refusal(f"the pieces of {self.about.piece.words[-1]} are not those of one file, which changed while it was queued")
            yield whole

    def begun_with(self) -> str:
        """The name of the job with which its delivery was begun before, or nothing."""
        about = About.read(self.folder, _CAME)
        return about.came if about else ""

    def prepare_note(self, job: str, what: str) -> None:
        """Writes with which job its delivery begins, and what `note_came` needs if there is no room for more."""
        self.about._replace(came=job, what=what).write(self.folder, _CAME)

    def note_came(self, job: str, what: str) -> None:
        """Keeps with which job it was delivered, and what that was."""
        self.about = self.about._replace(came=job, what=what)
        try:
            self.about.write(self.folder)
        except OSError:
            os.replace(f"{self.folder}/{_CAME}", f"{self.folder}/{ABOUT}")

    def count(self) -> int:
        """How many pieces are here."""
        with self._whole(os.O_RDWR | os.O_CREAT) as whole:
            front = self._front(whole)
        early = sum(name.isdecimal() and int(name) >= front for name in files.names_in(self.folder))
        return -(-front // self.about.piece.length) + early

    def set_aside(self, refused: str, why: str) -> None:
        """The file is refused. What came of it is kept in the folder of what is refused, where its user wasn't told yet."""
        self.about._replace(why=why).write(self.folder)
        os.rename(self.folder, f"{refused}/{os.path.basename(self.folder)}{FILE}{UNTOLD}")
        files.sync_folder(refused)

    def forget(self) -> None:
        """Removes what came of it. That it came is known as long as a piece of it may come again. Its lock is removed last."""
        if not self.about.piece.mark:
            files.remove_folder(self.folder)
        for name in files.names_in(self.folder):
            if name != ABOUT:
                files.remove(f"{self.folder}/{name}")
        files.remove(f"{self.folder}.lock")


def _is_same(content: int, other: int, at: int) -> bool:
    data = os.pread(content, MOST_OF_A_JOB, 0)
    return os.pread(other, len(data), at) == data


def _expect_same(piece: Piece, content: int, other: int, at: int) -> None:
    if not _is_same(content, other, at):
        raise Refusal(f"{piece.place} of {piece.words[-1]} came twice, with other bytes")


class Pieces:
    """The files of a sender of which pieces come. Those that are refused are in another folder."""

    def __init__(self, folder: str, refused: str, pause: Callable[[float], None], patience: float) -> None:
        self._folder, self._refused, self._pause, self._patience = folder, refused, pause, patience

    @contextlib.contextmanager
    def held(self, piece: Piece, user: str, job: str) -> Iterator[File]:
        """The file of a piece, which a job of this name brings. No other process has it meanwhile."""
        name = piece.name(user)
        path = f"{self._folder}/{name}"
        with contextlib.ExitStack() as held:
            try:
                os.makedirs(self._folder, exist_ok=True)
                lock = self._lock(f"{path}.lock", held)
                if lock is None:
                    raise Delay(f"{piece.place} of {piece.words[-1]} waits for another one below {self._folder}")
                file = self._found(name, piece, user, job)
            except OSError as error:
                raise cannot_be_kept(piece, self._folder, error) from None
            try:
                yield file
            finally:
                if lock.is_current() and not os.path.isdir(path):  # (it is refused, and nothing else would remove the lock soon)
                    files.remove(lock.path)

    def _lock(self, path: str, held: contextlib.ExitStack) -> files.Lock | None:
        """Waits for the lock of a file. Whoever had it may have removed its file."""
        while True:
            lock = held.enter_context(files.Lock(path))
            if not lock.wait(self._patience, self._pause):
                return None
            if lock.is_current():
                return lock

    def _found(self, name: str, piece: Piece, user: str, job: str) -> File:
        for path in f"{self._refused}/{name}{FILE}", f"{self._refused}/{name}{FILE}{UNTOLD}":
            if about := About.read(path):
                return File(path, about, is_refused=True)
        folder = f"{self._folder}/{name}"
        about = About.read(folder)
        if about and not piece.mark and about.came and not about.came_with(job):
            files.remove_folder(folder)  # (it was delivered before a stop, and this is a new one)
            about = None
        if about is None and not piece.mark:
            about = self._renamed(piece, folder)
        if about is None:
            os.makedirs(folder, exist_ok=True)
            above = os.path.dirname(self._folder)
            for its in self._folder, above, os.path.dirname(above):
                files.sync_folder(its)
            about = About(piece, user, job)
            files.replace(f"{folder}/{_FRONT}", b"0")
            about.write(folder)
        return File(folder, about)

    def _renamed(self, piece: Piece, folder: str) -> About | None:
        """The file of an older version, whose folder had another name."""
        for name in files.names_in(self._folder):
            if name.startswith(f"{piece.sum}-") and (about := About.read(f"{self._folder}/{name}")):
                if about.piece._replace(at=piece.at) == piece:
                    os.rename(f"{self._folder}/{name}", folder)
                    return about
        return None


def _expect_room(folder: str) -> None:
    """A neighbour's pieces don't take the last of a disk."""
    disk = os.statvfs(folder)
    if disk.f_bavail * _FREE < disk.f_blocks or disk.f_favail * _FREE < disk.f_files:
        raise Delay(f"less than one part in {_FREE} of the disk of {folder} is free, so no piece is taken")


def cannot_be_kept(piece: Piece, folder: str, error: OSError) -> Delay:
    """Why a piece waits."""
    return Delay(f"{piece.place} of {piece.words[-1]} cannot be kept below {folder}: {error.strerror}")


def working_in(folder: str) -> str:
    """The file that says which process works on the whole of a folder, whichever piece it began with."""
    return f"{folder}/{_WORKS}"


def kept_in(folder: str) -> list[str]:
    """What is kept of the files of all senders."""
    return [f"{folder}/{sender}/{name}" for sender in files.names_in(folder) for name in files.names_in(f"{folder}/{sender}")]


def unfinished(folder: str, is_old: IsOld) -> Iterator[File]:
    """The files of all senders of which no other piece came for a long time. What is of no use is removed."""
    for path in kept_in(folder):
        with contextlib.suppress(OSError):
            if not is_old(path, DAYS):
                continue
            about = About.read(path)
            if about and not about.came:
                yield File(path, about)
            elif os.path.isdir(path):
                files.remove_folder(path)
            elif not os.path.exists(path.removesuffix(".lock")):
                os.remove(path)
