"""Whether the command of a job still works, although what began it was killed: the number of its process, and when that
began. No clock that somebody sets has a part in it."""
import contextlib
import os

from . import clock
from .files import opened, read_bytes, write_all
from .processes import kill_group

_BEGUN = 19  # the place of the time behind the name of the process
_MOST = 256  # bytes of a file that names one


def note(path: str) -> None:
    """This process, which becomes the command, says so. (On a full disk it doesn't, and may be begun twice.)"""
    with contextlib.suppress(OSError), opened(path, os.O_WRONLY | os.O_CREAT | os.O_TRUNC) as handle:
        write_all(handle, b"%d " % os.getpid() + _begun(os.getpid()))


def is_so(path: str) -> bool:
    """Whether the process that a file names still works."""
    number, begun = _named(path)
    return begun != b"" and begun == _begun(number)


def end_left(path: str) -> None:
    """Ends what works in the group of the process that a file names, if that process, which would have ended it, is gone.
    (While there is such a group, no new process gets its number.)"""
    number, begun = _named(path)
    if begun.split(b" ")[0] == clock.boot().encode() and not os.path.exists(f"/proc/{number}"):
        kill_group(number)


def _named(path: str) -> tuple[int, bytes]:
    """The number of the process that a file names, and when that began; nothing if the file names none. (0 is this process's
    own group, and 1 everybody's.)"""
    number, _, begun = (read_bytes(path, _MOST) or b"").partition(b" ")
    return (int(number), begun) if number.isdigit() and int(number) > 1 else (0, b"")


def _begun(process: int) -> bytes:
    """In which boot a process began, and when. Nothing if it is gone, or has ended and wasn't waited for yet."""
    name, _, rest = (read_bytes(f"/proc/{process}/stat") or b"").rpartition(b") ")
    fields = rest.split()
    return clock.boot().encode() + b" " + fields[_BEGUN] if name and fields[0] not in (b"Z", b"X") else b""
