"""Where mail of neighbours may go: to recipients of this site, and elsewhere only as /etc/uuspool/forward says.

A line has a neighbour, and the systems to which its mail is handed on. A word `@DOMAIN` is a domain of mail to which
this site's mailer may carry it, and `*` leaves all of it to the mailer. On a line of this site's own name, `@DOMAIN` is
a domain of this site."""
import os
from collections.abc import Collection, Sequence

from .errors import Refusal
from .files import read_bytes
from .texts import is_name
from .values import NamedTuple

_MAILNAME = "/etc/mailname"  # Debian's name of the domain of this machine's mail
_USER = r"\w[\w.+=&'~#^-]*"  # without signs by which a mailer finds another host, a file, a program or a variable
_AT_DOMAIN = rf"{_USER}@([A-Za-z0-9.-]+)"
_SYSTEM = r"[A-Za-z0-9._][A-Za-z0-9._-]*"  # what is handed on begins with the next one, and mustn't look like an option
_PATH = rf"({_SYSTEM})!(?:{_SYSTEM}!)*{_USER}(@[A-Za-z0-9][A-Za-z0-9.-]*)?"


class Forward(NamedTuple):
    """What the file says about a neighbour."""

    systems: tuple[str, ...] = ()
    domains: frozenset[str] = frozenset()
    is_all: bool = False
    others: tuple[str, ...] = ()  # words that mean nothing


def read(path: str, neighbour: str) -> Forward:
    """What the first line of a neighbour says."""
    for line in (read_bytes(path) or b"").decode(errors="replace").splitlines():
        if (words := line.split())[:1] == [neighbour]:
            return _said(words[1:])
    return Forward()


def _said(words: Sequence[str]) -> Forward:
    rest = [word for word in words if word != "*" and not word.startswith("@")]
    domains = frozenset(word[1:].lower() for word in words if word.startswith("@"))
    return Forward(tuple(filter(is_name, rest)), domains, "*" in words, tuple(word for word in rest if not is_name(word)))


def expect_allowed(path: str, own: str, neighbour: str, addresses: Sequence[str], hop: str = "") -> None:
    """Refusal unless this site takes a neighbour's mail for each of these addresses. If the mail as a whole goes on to a system (`hop`), they
    may be `HOP!USER@DOMAIN`, which a mailer here would carry to the domain."""
    forward = read(path, neighbour)
    ours = own_domains(path, own)
    domains = forward.domains | ours
    for address in addresses:
        if not (forward.is_all or _is_allowed(_behind(own, ours, address), forward.systems, domains, hop)):
            raise Refusal(f"{own} takes no mail of {neighbour} for {address}, which is no user of {own}: {path} says what is handed on")


def behind(path: str, own: str, address: str) -> str:
    """An address as this site's mailer, or the next site, gets it: without this site's own name before it. What comes for a
    domain of this site and a user, as an envelope has a sender, is for the user at that domain (RFC 976)."""
    return _behind(own, own_domains(path, own), address) if "!" in address else address


def _behind(own: str, ours: Collection[str], address: str) -> str:
    import re  # (loaded late, since only deliveries of mail need it)

    while (rest := address.removeprefix(f"{own}!")) not in ("", address):
        address = rest
    domain, _, user = address.partition("!")
    return f"{user}@{domain}" if "." in domain and domain.lower() in ours and re.fullmatch(_USER, user) else address


def is_address(address: str) -> bool:
    """Whether an address is that of a user, alone, at a domain or behind systems, in which no mailer finds anything else."""
    import re  # (loaded late, since only deliveries of mail need it)

    return any(re.fullmatch(it, address) for it in (_PATH, _AT_DOMAIN, _USER))


def next_hop(path: str, neighbour: str, addresses: Sequence[str]) -> str:
    """The system to which mail of a neighbour is handed on, as all its addresses begin with it, or nothing."""
    hops = {address.partition("!")[0] if "!" in address else "" for address in addresses}
    return next(iter(hops)) if len(hops) == 1 and hops <= set(read(path, neighbour).systems) else ""


def own_domains(path: str, own: str) -> frozenset[str]:
    """The names by which mailers know this site, in small letters."""
    mailname = (read_bytes(_MAILNAME) or b"").decode(errors="replace").strip()
    return read(path, own).domains | {it.lower() for it in (own, mailname, os.uname().nodename) if it}


def _is_allowed(address: str, systems: Sequence[str], domains: frozenset[str], hop: str) -> bool:
    import re  # (loaded late, since only deliveries of mail need it)

    if found := re.fullmatch(_PATH, address):
        return found[1] in systems and (not found[2] or found[1] == hop)
    if found := re.fullmatch(_AT_DOMAIN, address):
        return found[1].lower() in domains
    return re.fullmatch(_USER, address) is not None
