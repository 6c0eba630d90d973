"""The turn of a spool, as each line of the program takes it: one process at a time works over the spool's files."""
import contextlib
import errno
import fcntl
import os
import stat
import struct
import time
from collections.abc import Callable, Iterator

from . import files
from .errors import LATER, Failure
from .session import acting_as

_MOST_DIGITS = 20  # of a process
_FIRST_PAUSE, _LONGEST_PAUSE = 0.001, 0.05  # seconds
_OPEN = os.O_RDWR | os.O_NOFOLLOW | os.O_NOCTTY | os.O_CLOEXEC
_LOCK = struct.pack("hhqqi4x", fcntl.F_WRLCK, os.SEEK_SET, 0x40000000, 512, 0)  # the bytes that SQLite locks
_BUSY = (errno.EAGAIN, errno.EACCES)


class Turn(files.Lock):
    """The lock on SPOOL-lock, in which the number of this process is written. For root the owner of its folder opens it, who
    may have put a link on the way."""

    def __init__(self, spool: str, seconds: int, owner: str = "") -> None:
        self.path, self.seconds, self._owner = f"{spool}-lock", seconds, owner
        with acting_as(owner):
            self.handle = os.open(self.path, _OPEN | os.O_CREAT, 0o600)
        self._ends = time.monotonic() + seconds

    def wait_for_it(self, pause: Callable[[float], None]) -> None:
        """Waits for the turn."""
        if not self._tries(self.take, pause):
            # (By the path the owner may have put a link there meanwhile.)
            holder = os.pread(self.handle, _MOST_DIGITS, 0).decode(errors="replace").strip()
            raise Failure(LATER, f"no turn within {self.seconds} seconds: process {holder or '-'} has {self.path}")
        with files.naming(self.handle):
            os.pwrite(self.handle, b"%10d\n" % os.getpid(), 0)

    @contextlib.contextmanager
    def database(self, path: str, pause: Callable[[float], None]) -> Iterator[int]:
        """The open database, which no other program, such as sqlite3, has open meanwhile."""
        with acting_as(self._owner):
            handle = opened(path, _OPEN)
        with files.closing(handle):
            if not self._tries(lambda: _is_locked(handle), pause):
                raise Failure(LATER, f"{path} is in use by another program, such as sqlite3")
            yield handle

    def _tries(self, take: Callable[[], bool], pause: Callable[[float], None]) -> bool:
        """Tries as often as the time of this turn allows, and at least once."""
        wait = _FIRST_PAUSE
        while not take():
            if time.monotonic() >= self._ends:
                return False
            pause(wait)
            wait = min(2 * wait, _LONGEST_PAUSE)
        return True


def opened(path: str, flags: int, folder: int | None = None, any_names: bool = False) -> int:
    """An open file, which has to be a regular file with one name, or with any number of them."""
    handle = os.open(path, flags | os.O_NOFOLLOW | os.O_NONBLOCK | os.O_CLOEXEC, dir_fd=folder)
    seen = os.fstat(handle)
    if not stat.S_ISREG(seen.st_mode) or not (any_names or seen.st_nlink == 1):
        os.close(handle)
        raise OSError(errno.EINVAL, "is no regular file with one name", path)
    return handle


def _is_locked(handle: int) -> bool:
    try:
        fcntl.fcntl(handle, fcntl.F_OFD_SETLK, _LOCK)
    except OSError as error:
        if error.errno in _BUSY:
            return False
        raise
    return True
