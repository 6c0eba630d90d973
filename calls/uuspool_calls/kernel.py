"""System calls for which Python has no functions."""
import errno
import os
from collections.abc import Iterable

_KEYCTL = {"x86_64": 250, "aarch64": 219, "riscv64": 219, "ppc64le": 271, "s390x": 280}  # its number at each machine
_JOIN_SESSION_KEYRING = 1
_EXCHANGE = 2


def called(number: int, *words: int | bytes | None) -> int:
    """What a system call answers."""
    return _answer("syscall", number, *words)


def control(what: int, value: int) -> None:
    """Has the kernel treat this process in another way from now on (prctl)."""
    _answer("prctl", what, value, 0, 0, 0)


def leave_keyring() -> None:
    """From now on this process has a new keyring of its session, without the keys of the one that it was in. (A kernel without
    keyrings has none to leave. One that refuses this, as in a container, also refuses what reads keys.)"""
    machine = os.uname().machine
    if machine not in _KEYCTL:
        raise OSError(errno.ENOTSUP, f"nobody knows how a process leaves its keyring at {machine}")
    try:
        called(_KEYCTL[machine], _JOIN_SESSION_KEYRING, None)
    except OSError as error:
        if error.errno not in (errno.ENOSYS, errno.EPERM):
            raise


def exchange(folder: int, name: str, other_folder: int, other: str) -> None:
    """Exchanges what two names in open folders stand for, in one step (renameat2)."""
    _answer("renameat2", folder, os.fsencode(name), other_folder, os.fsencode(other), _EXCHANGE)


def _answer(function: str, *words: int | bytes | None) -> int:
    import ctypes  # (takes long to load)

    given: Iterable[object] = (ctypes.c_long(it) if isinstance(it, int) else it for it in words)
    answer = int(getattr(ctypes.CDLL(None, use_errno=True), function)(*given))
    if answer < 0:
        raise OSError(number := ctypes.get_errno(), os.strerror(number))
    return answer
