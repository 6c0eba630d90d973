"""uuspool-postfix: makes Postfix's table of the hosts of the map, in which the system is the domain, and the rest of the path stands before
the user.

Whoever works as the spool's user may load another map, so no word of it is a pattern, and this machine isn't in the table by any name that
Postfix knows, nor is a host with a dot unless root names it."""
import os
import re
from collections.abc import Collection, Iterator, Sequence

from . import files, forward, options
from .errors import LATER, NOT_SET_UP, USAGE, Failure
from .processes import Program
from .session import Session
from .settings import Settings
from .site import find_from_anywhere, owner_of
from .texts import one_line, printable

_USAGE = "usage: uuspool-postfix [FILE]"
_DOMAINS = "/etc/postfix/map-domains"  # a line for each host with a dot that root wants in the table
_MOST = 10_000_000  # bytes of all routes
_OWN = ["postconf", "-hx", "mydestination"]
_HOST = re.compile(rb"[a-z0-9._-]+")
_ROUTE = re.compile(rb"([A-Za-z0-9._-]+)!((?:[A-Za-z0-9._-]+!)*)%s")


def run(session: Session, words: Sequence[str]) -> int:
    """The command."""
    _, names = options.read(words, "", _USAGE)
    if len(names) > 1:
        raise Failure(USAGE, _USAGE)
    path = os.path.abspath(names[0]) if names else ""
    found = find_from_anywhere(session)
    own, named = _own_names(session, found), _named()
    made = b"".join(b"%s\n" % line for line in lines(_routes(session, found), own, named))
    if path:
        files.replace(path, made, 0o644)
    else:
        files.write_all(1, made)
    return 0


def lines(routes: bytes, own: Collection[bytes], named: Collection[bytes]) -> Iterator[bytes]:
    """The lines of the table. Hosts whose names differ only in capitals have one, and that of a system leads to the system, because an
    address would be put together without end otherwise. A system that Postfix takes for this machine leads nowhere."""
    ways: dict[bytes, bytes] = {}
    for line in routes.split(b"\n"):
        host, _, path = line.partition(b"\t")
        host, way = host.lower(), _ROUTE.fullmatch(path)
        if way and _HOST.fullmatch(host) and host not in own and (b"." not in host or host in named):
            system, rest = way.groups()
            if system.lower() in own:
                continue
            if host not in ways or (host == system.lower() and not rest):
                ways[host] = rest + b"${1}@" + system
    for host, its in ways.items():
        yield b"/^(.*)@%s$/\t%s" % (host.replace(b".", b"\\."), its)


def _routes(session: Session, found: Settings) -> bytes:
    """What the program prints, as the spool's user."""
    try:
        owner, number = owner_of(found), os.stat(found.folder).st_uid
    except FileNotFoundError:
        raise Failure(NOT_SET_UP, f"{found.folder}, the folder of the spool, is not there") from None
    if os.geteuid() not in (0, number):
        raise Failure(LATER, f"{found.folder} belongs to {owner}: let root run this")
    ended = session.run_as(owner, [session.program, "routes"])
    if ended.status:
        raise Failure(LATER, f"uuspool routes, run as {owner}, ended with status {ended.status}: {one_line(ended.errors)}")
    if len(ended.output) > _MOST:
        raise Failure(LATER, f"uuspool routes, run as {owner}, printed more than {_MOST} bytes")
    return ended.output


def _own_names(session: Session, found: Settings) -> set[bytes]:
    """The names by which Postfix, or anybody else, knows this machine, in small letters."""
    path = f"{session.environment.get('PATH', '')}:/usr/sbin"
    ended = session.processes.run(Program(_OWN, "/", {**session.environment, "PATH": path}))
    if ended.status:
        raise Failure(NOT_SET_UP, f"{' '.join(_OWN)} ended with status {ended.status}, so nobody knows which mail is for this machine: {one_line(ended.errors)}")
    ours = set(re.split(rb"[\s,]+", ended.output.lower()))
    if tables := [it for it in ours if b"/" in it or b":" in it]:
        what = ", ".join(sorted(map(printable, tables)))
        raise Failure(NOT_SET_UP, f"Postfix has names of this machine in {what}, where they aren't looked for: write them into mydestination itself")
    node = os.uname().nodename
    names = {"localhost", node, node.partition(".")[0], *forward.own_domains(f"{session.etc}/forward", found.name)}
    return {it.lower().encode() for it in names} | ours


def _named() -> set[bytes]:
    """The hosts with a dot that root wants in the table."""
    try:
        with open(_DOMAINS, "rb") as file:
            return {line.strip().lower() for line in file}
    except FileNotFoundError:
        return set()
