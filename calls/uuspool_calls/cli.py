"""Runs a command as a process."""
import os
import sys
from collections.abc import Callable, Sequence

from .errors import LATER, Failure, Stopped
from .session import Session

Command = Callable[[Session, Sequence[str]], int]


def main(name: str, command: Command, umask: int | None = 0o077) -> int:
    """The status of a command with the words of this process. Without an umask that of the caller stays."""
    if umask is not None:
        os.umask(umask)
    _open_streams()
    return run(Session(name, os.environ), command, sys.argv[1:])


def _open_streams() -> None:
    """No file that is opened later takes the place of a stream that was closed before."""
    while (handle := os.open(os.devnull, os.O_RDWR)) <= 2:
        os.set_inheritable(handle, True)
    os.close(handle)


def run(session: Session, command: Command, words: Sequence[str]) -> int:
    """The status of a command. Why it failed is printed."""
    try:
        return command(session, words)
    except Failure as failure:
        if str(failure):
            session.say(str(failure))
        return failure.status
    except (Stopped, BrokenPipeError, KeyboardInterrupt):
        return LATER
    except OSError as error:
        session.say(f"{error.filename or 'the system'}: {error.strerror}")
        return LATER
