"""command SYSTEM PROGRAM [WORD..]: any program that takes a bundle as its input and prints the neighbour's:
`command over-kermit duke`. $UUSPOOL_SYSTEM is the neighbour, and $UUSPOOL_HERE this site."""
import os
from collections.abc import Sequence

from ..errors import NOT_SET_UP, Failure
from ..session import Session

_NOT_FOUND = 127


def run(session: Session, words: Sequence[str]) -> int:
    """The carrier, which becomes that program."""
    if len(words) < 2:
        raise Failure(NOT_SET_UP, "command: no program in the line of the call")
    try:
        os.execvpe(words[1], list(words[1:]), session.environment)
    except OSError as error:
        raise Failure(_NOT_FOUND, f"{words[1]}: {error.strerror}") from None
