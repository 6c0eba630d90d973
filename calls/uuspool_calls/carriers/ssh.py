"""ssh SYSTEM HOST [OPTION..]: carries a bundle over ssh. HOST is what ssh takes, uuspool@duke.example; options are
ssh's, such as `-p 2222`.

/etc/uuspool/keys/SYSTEM is the key, and /etc/uuspool/known_hosts has the hosts, if they are there. Otherwise ssh uses
its own. The neighbour's key has a forced command, uuspool-answer with this site's name. If the key has none, the call
gives the name."""
import os
from collections.abc import Sequence

from ..errors import NOT_SET_UP, REFUSED, Failure
from ..processes import Program
from ..session import Session

_ALWAYS = ("-T", "-o", "BatchMode=yes", "-o", "ConnectTimeout=30", "-o", "ServerAliveInterval=30", "-o", "ServerAliveCountMax=4")
_NOT_EXECUTABLE, _NOT_FOUND = 126, 127


def run(session: Session, words: Sequence[str]) -> int:
    """The carrier `ssh`. (127 is the remote shell's status; here it would mean that ssh is missing.)"""
    if len(words) < 2:
        raise Failure(NOT_SET_UP, "ssh: no host in the line of the call")
    if not session.finds("ssh"):
        raise Failure(_NOT_FOUND, "ssh is missing: install the package openssh-client")
    given = line(session.etc, session.environment.get("UUSPOOL_HERE", ""), words)
    status = Program(given, "", session.environment).start().wait()
    if why := explained(words[1], status):
        raise Failure(REFUSED, why)
    return status


def explained(host: str, status: int) -> str:
    """What a status of ssh means, if that is known."""
    return {_NOT_EXECUTABLE: f"{host} cannot run uuspool-answer", _NOT_FOUND: f"{host} has no uuspool-answer"}.get(status, "")


def line(etc: str, here: str, words: Sequence[str]) -> list[str]:
    """The words of ssh for a call."""
    system, host, *options = words
    if os.path.isfile(f"{etc}/known_hosts"):
        options = ["-o", f"UserKnownHostsFile={etc}/known_hosts", *options]
    if os.path.isfile(f"{etc}/keys/{system}"):
        options = ["-i", f"{etc}/keys/{system}", "-o", "IdentitiesOnly=yes", *options]
    return ["ssh", *_ALWAYS, *options, "--", host, f"uuspool-answer {here}"]
