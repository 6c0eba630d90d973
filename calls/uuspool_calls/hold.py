"""uuspool-hold: keeps the nights from calling a neighbour, or lets them call it again. A call by hand is still
made."""
from collections.abc import Sequence

from .errors import USAGE, Failure, spool_needed
from .session import Session
from .site import Site, enter
from .texts import is_name

_USAGE = "usage: uuspool-hold [NAME [off]]"


def run(session: Session, words: Sequence[str]) -> int:
    """The command."""
    site = enter(session)
    if not words:
        for name in site.contacts.held():
            session.print(name)
        return 0
    if len(words) > 2 or words[1:] not in ([], ["off"]):
        raise Failure(USAGE, _USAGE)
    if not is_name(words[0]):
        raise Failure(USAGE, f"{words[0]} isn't the name of a system")
    _expect_system(site, words[0])
    _hold(site, words[0], ends=len(words) == 2)
    return 0


def _expect_system(site: Site, name: str) -> None:
    with spool_needed(f"the spool cannot be asked for {name}"):
        definition = site.spool.systems(name)
    if not definition:
        raise Failure(1, f"no system {name} is defined: {site.etc}/sys and uuspool-sys define one")


def _hold(site: Site, name: str, ends: bool) -> None:
    with site.writing("calls"):
        site.contacts.change(name, held=not ends)
    site.log.note(name, "", "", "released" if ends else "held", "by uuspool-hold")
