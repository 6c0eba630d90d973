"""Files that are replaced whole, marks whose time counts, and locks."""
import contextlib
import fcntl
import os
import stat
import time
from collections.abc import Callable, Iterator, Mapping

from .values import Any, Self

_MOST_OF_A_RECORD = 1 << 20  # bytes, which JSON may make twenty times as many in memory


@contextlib.contextmanager
def closing(handle: int) -> Iterator[int]:
    """An open file, which is closed then."""
    try:
        yield handle
    finally:
        os.close(handle)


def opened(path: str, flags: int = os.O_RDONLY, mode: int = 0o600, folder: int | None = None) -> contextlib.AbstractContextManager[int]:
    """The open file of a path, or of a name in an open folder."""
    return closing(os.open(path, flags, mode, dir_fd=folder))


def look(path: str, folder: int | None = None, follows: bool = True) -> os.stat_result | None:
    """What the system says of a file, or None if it isn't there, or nobody may know that."""
    with contextlib.suppress(OSError):
        return os.stat(path, dir_fd=folder, follow_symlinks=follows)
    return None


@contextlib.contextmanager
def naming(handle: int) -> Iterator[None]:
    """An error with an open file says its path, which the system's own doesn't, as on a full disk."""
    try:
        yield
    except OSError as error:
        with contextlib.suppress(OSError):
            error.filename = error.filename or os.readlink(f"/proc/self/fd/{handle}")
        raise


def sync(handle: int) -> None:
    """Writes an open file to the disk, or the names in an open folder."""
    with naming(handle):
        os.fsync(handle)


def sync_folder(folder: str) -> None:
    """Writes the names in a folder to the disk."""
    with opened(folder, os.O_RDONLY | os.O_DIRECTORY) as handle:
        sync(handle)


def sync_file(path: str) -> None:
    """Writes a file to the disk, and its name. It is no link, and no pipe is waited for."""
    with opened(path, os.O_RDONLY | os.O_NOFOLLOW | os.O_NONBLOCK) as handle:
        sync(handle)
    sync_folder(os.path.dirname(path))


def write_all(handle: int, data: bytes) -> None:
    """Writes all bytes, however many a write takes."""
    rest = memoryview(data)
    with naming(handle):
        while rest:
            rest = rest[os.write(handle, rest) :]


def copy_all(source: int, target: int, place: int = 0) -> None:
    """Copies a file from its beginning, or from a place in it."""
    while block := os.pread(source, 1 << 20, place):
        write_all(target, block)
        place += len(block)


def replace(path: str, data: bytes | int, mode: int = 0o600) -> None:
    """Makes a file of these bytes, or of those of an open file, and replaces the one that was there. The
    file is on the disk, whole, before this ends. If that can't be, as on a full disk, nothing is left of it."""
    new = _new_of(path)
    try:
        with closing(_opened_anew(new)) as handle:
            os.fchmod(handle, mode)
            if isinstance(data, bytes):
                write_all(handle, data)
            else:
                copy_all(data, handle)
            os.fsync(handle)
        os.replace(new, path)
    except OSError as error:
        with contextlib.suppress(OSError):
            os.remove(new)
        raise OSError(error.errno, error.strerror, path) from None
    sync_folder(os.path.dirname(path))


def _new_of(path: str) -> str:
    """The path of what is to replace a file."""
    folder, name = os.path.split(path)
    return f"{folder}/.{name}.new"


def _opened_anew(path: str) -> int:
    """A file that is written from its beginning. One that a killed process left is used again. What somebody else put there,
    into whose folder root writes, is removed: it may be a pipe, a link, or another name of root's own file."""
    flags = os.O_WRONLY | os.O_CREAT | os.O_NOFOLLOW | os.O_NONBLOCK | os.O_CLOEXEC
    with contextlib.suppress(OSError):
        handle = os.open(path, flags, 0o600)
        seen = os.fstat(handle)
        if stat.S_ISREG(seen.st_mode) and (seen.st_nlink, seen.st_uid) == (1, os.geteuid()):
            os.ftruncate(handle, 0)
            return handle
        os.close(handle)
    remove(path)
    return os.open(path, flags | os.O_EXCL, 0o600)


def open_at_once(path: str, flags: int) -> int:
    """An `opener` that waits for no pipe."""
    return os.open(path, flags | os.O_NONBLOCK | os.O_NOCTTY)


def read_bytes(path: str, most: int = -1) -> bytes | None:
    """What a file has, or so many bytes of it, or None if it can't be read, or isn't a file: root reads in folders of the
    spool's user, where a pipe would be waited for, a device may have no end, and a file with holes is as large as anybody
    likes."""
    with contextlib.suppress(OSError), open(path, "rb", opener=open_at_once) as file:
        if stat.S_ISREG(os.fstat(file.fileno()).st_mode):
            return file.read(most)
    return None


def read_end(path: str, most: int) -> bytes:
    """So many bytes from the end of a file, or nothing if it can't be read, or isn't a file. A log with a hole is as large as
    anybody likes."""
    with contextlib.suppress(OSError), opened(path, os.O_RDONLY | os.O_NONBLOCK | os.O_NOCTTY) as handle:
        seen = os.fstat(handle)
        if stat.S_ISREG(seen.st_mode):
            return os.pread(handle, most, max(0, seen.st_size - most))
    return b""


def read_record(path: str, most: int = _MOST_OF_A_RECORD) -> dict[str, Any]:
    """What a file of JSON has; nothing if it isn't there, isn't such a file, or has more bytes."""
    return record_in(read_bytes(path, most))


def record_in(text: bytes | None) -> dict[str, Any]:
    """What such a text has."""
    if not text:
        return {}
    import json  # (takes long to load)

    with contextlib.suppress(ValueError, RecursionError):
        record = json.loads(text)
        if isinstance(record, dict):
            return record
    return {}


def write_record(path: str, record: Mapping[str, Any]) -> None:
    """Replaces a file of JSON."""
    import json

    replace(path, json.dumps(record).encode() + b"\n")


def remove(path: str) -> None:
    """Removes a file, if it is there."""
    with contextlib.suppress(FileNotFoundError):
        os.remove(path)


def forget(path: str) -> None:
    """Removes a file that is replaced whole, and what a process that was killed left of a new one."""
    remove(path)
    remove(_new_of(path))


def remove_folder(path: str) -> None:
    """Removes a folder of files, as far as possible."""
    with contextlib.suppress(OSError):
        for name in os.listdir(path):
            os.remove(f"{path}/{name}")
        os.rmdir(path)


def touch(path: str) -> None:
    """Makes an empty file, whose time is now."""
    with opened(path, os.O_WRONLY | os.O_CREAT | os.O_TRUNC) as handle:
        os.utime(handle)


def touch_if_possible(path: str) -> None:
    """Makes such a file, unless the disk is full. Without it something is done once more."""
    with contextlib.suppress(OSError):
        touch(path)


def is_fresh(path: str, seconds: float) -> bool:
    """Whether a mark was made so few seconds ago."""
    seen = look(path)
    return seen is not None and 0 <= time.time() - seen.st_mtime < seconds


def names_in(folder: str) -> list[str]:
    """The names in a folder, sorted; none if the folder isn't there."""
    with contextlib.suppress(OSError):
        return sorted(os.listdir(folder))
    return []


class Lock:
    """The lock of a file. A process that ends gives it back. No program that it starts has it, but lines of the spool
    (`Spool.keeping`), which then give it back when they end."""

    def __init__(self, path: str) -> None:
        self.path = path
        self.handle = os.open(path, os.O_RDWR | os.O_CREAT | os.O_APPEND | os.O_CLOEXEC, 0o600)

    def take(self) -> bool:
        """Takes the lock, unless another process has it."""
        try:
            fcntl.flock(self.handle, fcntl.LOCK_EX | fcntl.LOCK_NB)
        except BlockingIOError:
            return False
        return True

    def give_back(self) -> None:
        """Gives it back before this process ends, also for all that have it from this one."""
        fcntl.flock(self.handle, fcntl.LOCK_UN)

    def wait(self, seconds: float, pause: Callable[[float], None]) -> bool:
        """Waits for the lock."""
        ends = time.monotonic() + seconds
        while not self.take():
            if time.monotonic() >= ends:
                return False
            pause(0.1)
        return True

    def is_current(self) -> bool:
        """Whether the path still is this file. Whoever had the lock may have removed it, and then another
        process may have the lock of a new one."""
        with contextlib.suppress(FileNotFoundError):
            return os.path.samestat(os.fstat(self.handle), os.stat(self.path))
        return False

    def __enter__(self) -> Self:
        return self

    def __exit__(self, *error: object) -> None:
        os.close(self.handle)


@contextlib.contextmanager
def memory_file(data: bytes) -> Iterator[int]:
    """An open file of these bytes that is on no disk. A program whose input it is gets all of them, even
    if this process is killed."""
    handle = os.memfd_create("uuspool", os.MFD_CLOEXEC)
    with closing(handle):
        write_all(handle, data)
        os.lseek(handle, 0, os.SEEK_SET)
        yield handle


@contextlib.contextmanager
def nameless_file(folder: str) -> Iterator[int]:
    """A new open file on the disk of a folder. It is gone when nobody has it any more."""
    import tempfile  # (takes long to load)

    with tempfile.TemporaryFile(buffering=0, dir=folder) as file:
        yield file.fileno()
