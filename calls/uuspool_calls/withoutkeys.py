"""without-keys PROGRAM [WORD]..: becomes a program that has no key of this process's session. Whatever else the spool's user runs may
enter a process that sudo begins as that user, and would have the keys of whoever called sudo."""
import os
import signal
from collections.abc import Sequence

from . import kernel
from .errors import LATER, USAGE, Failure
from .session import Session


def run(session: Session, words: Sequence[str]) -> int:
    """The command. What was ignored before stays so, but for SIGPIPE, which Python ignores itself."""
    if not words:
        raise Failure(USAGE, "a program is missing: without-keys PROGRAM [WORD]..")
    try:
        kernel.leave_keyring()
    except OSError as error:
        raise Failure(LATER, f"this process cannot leave the keys of its session: {error.strerror}") from None
    signal.signal(signal.SIGPIPE, signal.SIG_DFL)
    os.execvpe(words[0], [*words], session.environment)
