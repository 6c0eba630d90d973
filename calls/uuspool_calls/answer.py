"""uuspool-answer: the neighbour's end of a call. It takes the neighbour's bundle on standard input and
prints this site's own.

It is the forced command of the neighbour's key, so this site decides what the neighbour is called:

    command="uuspool-answer mysite",restrict ssh-ed25519 AAAA.. mysite

Nothing is run: everything is queued, for this site, or for a system to which mail of the neighbour is
handed on. If the spool fails, nothing is answered, and the sender's jobs wait there. While too many of its jobs wait
here, it takes no more, and says nothing of them. The neighbour still gets what waits for it, and the status is 75."""
import contextlib
import os
from collections.abc import Sequence

from . import bundle, carriers
from .errors import LATER, USAGE, Failure
from .exchange import Neighbour, NotTaken
from .session import Session
from .site import Site, enter
from .texts import is_name

_USAGE = "usage: uuspool-answer SENDER [SYSTEM..]"
_MOST_AT_ONCE = 4  # calls of a neighbour that are answered at a time
_IDLE = 300  # seconds


def run(session: Session, words: Sequence[str]) -> int:
    """The command."""
    sender, *onward = words or [""]
    if not is_name(sender):
        raise Failure(USAGE, _USAGE)
    # A fault is read at the neighbour, so it says which site it is from.
    session.name = f"uuspool-answer at the site that {sender} called"
    site = enter(session, keeps=() if os.isatty(0) else (0,))
    session.name = f"uuspool-answer at {site.own}"
    session.processes.catch_stops()
    with contextlib.ExitStack() as held:
        if not any(held.enter_context(site.lock(f"calls/{sender}.answer.{it}")).take() for it in range(1, _MOST_AT_ONCE + 1)):
            raise Failure(LATER, f"{_MOST_AT_ONCE} calls of {sender} are being answered")
        _answer(session, site, sender, onward)
    return 0


def _answer(session: Session, site: Site, sender: str, onward: Sequence[str]) -> None:
    at_once = carriers.handed_on_at_once(session, site.onward(sender))
    neighbour = Neighbour(site, sender, [*at_once, *onward], carriers.most_for(session, sender))
    try:
        text = neighbour.front(_read(session, sender))
        taken = neighbour.take(text, replies=True)
    except NotTaken as why:
        raise Failure(LATER, str(why)) from None
    session.processes.write_output(1, neighbour.reply_to(text, taken), session.call_limit)
    if site.has_handed(sender):
        from . import handover  # (which few neighbours need)

        handover.take_back(site, sender)
    if fault := taken.later or taken.fault:
        raise Failure(LATER, fault)


def _read(session: Session, sender: str) -> bytes:
    """The bundle. A line that hangs isn't waited for without end."""
    text = session.processes.read_input(0, bundle.MOST, session.call_limit, _IDLE)
    if text is None:
        raise Failure(LATER, f"the bundle of {sender} did not come within {session.call_limit} seconds, or nothing for {_IDLE}")
    if not text:
        raise Failure(LATER, f"nothing came from {sender}")
    return text
