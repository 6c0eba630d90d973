"""The site whose spool a command works on."""
import contextlib
import os
import sys
from collections.abc import Iterator, Sequence

from . import files, forward, settings
from .contacts import Contacts
from .errors import LATER, NOT_SET_UP, Failure
from .journal import Journal
from .processes import Program
from .session import Session, user_name
from .spool import Spool
from .texts import is_name

_MOST_OF_A_WORD = 1 << 12  # bytes
_PATIENCE = 60  # seconds for others that move, refuse or settle jobs
ROUND = "deliver/round"  # the file whose time is that of the last round of a night
HANDED = "taylor"  # the folder of what Taylor UUCP has, by neighbours: notes of jobs
VACUUM = "deliver/vacuum"  # the file whose time is when a night last gave back the room of the spool's file


class Site:
    """A site that a command entered: its folder, its spool and its log."""

    def __init__(self, session: Session, found: settings.Settings) -> None:
        self.session, self.settings = session, found
        self.folder, self.etc = found.folder, session.etc
        self.environment = dict(session.environment)
        self.own = found.name
        if found.path == f"{found.start}/uuspool.toml":
            self.environment["UUSPOOL_DIR"] = found.start
        self.spool = Spool([session.program, "-c", found.path], found.start, self.environment, session.processes)
        self.contacts = Contacts(self.folder)
        self.log = Journal(found.log, found.zone, session.say)
        self._is_alone = False

    @contextlib.contextmanager
    def alone(self) -> Iterator[None]:
        """Meanwhile no other process moves or refuses jobs, or settles which of them a neighbour has. Otherwise pieces of one file would be
        at two neighbours, or a job would go whose user hears that it is refused."""
        if self._is_alone:
            yield
            return
        with self.lock("moves/.lock") as lock:
            if not lock.wait(_PATIENCE, self.session.processes.pause):
                raise Failure(LATER, f"jobs of {self.own} are being moved or refused by another process")
            self._is_alone = True
            try:
                with self.spool.keeping(lock):
                    yield
            finally:
                self._is_alone = False

    def word(self) -> str:
        """What identifies this spool. A new one, which gives its numbers again, has another word."""
        return (files.read_bytes(f"{self.settings.spool}-word", _MOST_OF_A_WORD) or b"").decode(errors="replace").strip()

    def onward(self, neighbour: str) -> list[str]:
        """The systems for which mail from a neighbour is handed on."""
        return list(forward.read(f"{self.etc}/forward", neighbour).systems)

    def has_handed(self, neighbour: str) -> bool:
        """Whether notes say that Taylor UUCP may have jobs for a neighbour."""
        return any(name.endswith(".json") for name in files.names_in(f"{self.folder}/{HANDED}/{neighbour}"))

    def handed(self) -> list[str]:
        """The neighbours for which Taylor UUCP may have jobs."""
        return [name for name in files.names_in(f"{self.folder}/{HANDED}") if is_name(name) and self.has_handed(name)]

    def lock(self, path: str) -> files.Lock:
        """The lock of a file below the folder."""
        with self.writing(os.path.dirname(path)):
            return files.Lock(f"{self.folder}/{path}")

    @contextlib.contextmanager
    def writing(self, where: str = "") -> Iterator[None]:
        """If a file below the folder can't be written, the command ends."""
        try:
            yield
        except OSError as error:
            place = f"{self.folder}/{where}" if where else self.folder
            raise Failure(LATER, f"cannot write below {place}: {error.strerror}") from None

    def will_forget_keys(self) -> None:
        """Says that a key of this site is used, so that a round of deliveries forgets it later. (If this can't be
        said, it is kept until the next one.)"""
        files.touch_if_possible(f"{self.folder}/deliver/keys")


def enter(session: Session, words: Sequence[str] | None = None, keeps: Sequence[int] = ()) -> Site:
    """The site of this run. The folder of its spool has to be this user's, so what root runs runs again, with these words
    or those of this process, as its owner, who gets these streams as they are. (The program looks whether the spool is there.)"""
    found = settings.find(session)
    _expect_owner(session, found, sys.argv[1:] if words is None else words, keeps)
    site = Site(session, found)
    with site.writing():
        for name in "calls", "deliver", "moves", "refused":
            os.makedirs(f"{site.folder}/{name}", exist_ok=True)
    return site


def find_from_anywhere(session: Session) -> settings.Settings:
    """The settings of the site for root, who may be in somebody's folder: those in the working directory don't count,
    and what is run next isn't run there."""
    if folder := session.environment.get("UUSPOOL_DIR"):
        session.environment["UUSPOOL_DIR"] = os.path.abspath(folder)
    os.chdir("/")
    return settings.find(session)


def owner_of(found: settings.Settings) -> str:
    """The user of a site: whose folder its spool is in. (That of the spool's file says nothing, since this user may
    put a link there.) Settings that a user may write lead root to no site of somebody else."""
    owner = os.stat(found.folder).st_uid
    for writer in _writers_of(found) - {owner, os.geteuid()}:
        name = user_name(writer)
        raise Failure(NOT_SET_UP, f"{name} may write {found.path}, but {found.folder}, which it names, is not of {name}: correct it")
    return user_name(owner)


def _writers_of(found: settings.Settings) -> set[int]:
    """Who besides root may write the settings."""
    return {it.st_uid for it in (os.lstat(found.path), os.stat(found.path), os.stat(os.path.dirname(found.path)))} - {0}


def is_named_by_root(found: settings.Settings) -> bool:
    """Whether root may type a line with a path of the settings, since nobody else wrote it. (Anybody but root risks no more
    than own files.)"""
    return os.geteuid() != 0 or not _writers_of(found)


def _expect_owner(session: Session, found: settings.Settings, words: Sequence[str], keeps: Sequence[int]) -> None:
    """What root made would lock the spool's user out."""
    try:
        owner = os.stat(found.folder).st_uid
    except OSError:
        raise Failure(NOT_SET_UP, f"{found.folder}, the folder of the spool that {found.path} names, is not there") from None
    if os.geteuid() != 0:
        if owner == os.geteuid():
            return
        name = user_name(owner)
        raise Failure(LATER, f"{found.folder} belongs to {name}: type {session.command} .. as root, or as {name}")
    # (Somebody else's settings lead root to no folder of root's, also if they name another folder from now on.)
    name = owner_of(found)
    if name == user_name(0):
        return
    if name.isdecimal():
        raise Failure(NOT_SET_UP, f"{found.folder} belongs to user {owner}, who has no account")
    if found.path == f"{found.start}/uuspool.toml":
        session.environment["UUSPOOL_DIR"] = found.start
    from . import relay  # (which only root needs)

    program = Program([os.path.realpath(sys.argv[0]), *words], "/", session.environment)
    raise SystemExit(relay.run(session.acting(name, program), keeps))


def has_bytes(path: str) -> bool:
    """Whether a file is there that isn't empty."""
    seen = files.look(path)
    return seen is not None and seen.st_size > 0
