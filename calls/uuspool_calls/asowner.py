"""as-owner [-i] [-m BYTES] USER PROGRAM [WORD]..: root runs a program as the user whose the spool is, with no folder, open file, terminal or
key of root's, and no variable but those of `Session.passed`. With -i it has root's input unless that is a terminal or a socket: whatever
else this user runs may read that, too, and root's script may be in it. Its output is copied. What prints more than so many bytes is
ended, as one whose output nobody reads."""
import os
from collections.abc import Sequence

from . import options, relay
from .errors import USAGE, Failure
from .processes import Program
from .session import Session
from .texts import is_number

_USAGE = "as-owner [-i] [-m BYTES] USER PROGRAM [WORD].."


def run(session: Session, words: Sequence[str]) -> int:
    """The command."""
    given, rest = options.read(words, "im:", _USAGE)
    if len(rest) < 2:
        raise Failure(USAGE, f"a user or a program is missing: {_USAGE}")
    most = given.get("m")
    if most is not None and not is_number(most):
        raise Failure(USAGE, f"-m {most}: no number of bytes: {_USAGE}")
    program = session.acting(rest[0], Program(rest[1:], "/", session.environment))
    if "i" not in given or relay.goes_both_ways(0):
        os.dup2(os.open(os.devnull, os.O_WRONLY), 0)  # (A read fails, so that no empty job is queued.)
    return relay.run(program, (0,), int(most) if most else None)
