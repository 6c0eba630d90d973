"""The keys with which bundles of neighbours are sealed: a file for each neighbour, in the folder that `seals` of the
settings names. The program alone seals and opens, by the first key and by any key of a file."""
import contextlib
import os
import re
import stat
from collections.abc import Iterator, Sequence

from . import carriers, files, settings
from .errors import LATER, NOT_SET_UP, USAGE, Failure
from .session import Session, acting_as, line_as, numbers_of, user_name
from .texts import typed

_KEY = re.compile("[0-9a-fA-F]{64}")
_UNSEALED = "unsealed"
_KEYS = re.compile(rb"([0-9a-fA-F]{64}\n)+")
_MOST_OF_KEYS = 65_001  # bytes, as the program has it: a thousand keys
_PRIVATE = 0o077


class KeyFiles:
    """The folder of key files, whose owner is the spool's user."""

    def __init__(self, folder: str, owner: str, etc: str = "", is_named_by_root: bool = True) -> None:
        self.folder, self._owner, self._etc = folder, owner, etc
        self._is_named_by_root = is_named_by_root

    def path(self, neighbour: str) -> str:
        return f"{self.folder}/{neighbour}"

    def keys(self, neighbour: str) -> list[str]:
        """The keys of a neighbour. None if there is no file, or it says that bundles aren't sealed."""
        lines = (self._read(neighbour) or b"").decode(errors="replace").splitlines()
        return [line for line in lines if _KEY.fullmatch(line)]

    def is_unsealed(self, neighbour: str) -> bool:
        """Whether the file of a neighbour says that its bundles aren't sealed."""
        return self._read(neighbour) == f"{_UNSEALED}\n".encode()

    def _read(self, neighbour: str) -> bytes | None:
        """What the file of a neighbour has, as its owner may read it, who may have put a link there."""
        with acting_as(self._owner):
            return files.read_bytes(self.path(neighbour), _MOST_OF_KEYS)

    def add(self, neighbour: str, key: str) -> bool:
        """Adds a key. Whether it is the first, with which bundles are sealed."""
        before = self.keys(neighbour)
        self._put(neighbour, [*before, key])
        return not before

    def leave_unsealed(self, neighbour: str) -> None:
        """Says that a neighbour's bundles aren't sealed."""
        self._put(neighbour, [_UNSEALED])

    def _put(self, neighbour: str, lines: list[str]) -> None:
        try:
            if not os.path.isdir(self.folder):
                self._make_folder()
            with acting_as(self._owner):
                files.replace(self.path(neighbour), "".join(f"{line}\n" for line in lines).encode(), 0o600)
        except OSError as error:
            raise Failure(LATER, f"cannot write {self.path(neighbour)}: {error.strerror}") from None

    def _make_folder(self) -> None:
        """Makes the folder as its owner. If the owner may not make it there, root makes the one that the pages name, and
        gives away what it opened. (Another one might be obeyed by somebody else, such as /etc/uuspool/calls, or one behind a link and `../`.)"""
        with contextlib.suppress(PermissionError), acting_as(self._owner):
            os.makedirs(self.folder, mode=0o700)
            return
        if os.geteuid() or self.folder != f"{self._etc}/seals":
            raise Failure(NOT_SET_UP, f"{self._owner} cannot make {self.folder}, the folder for keys: let the settings say seals = \"{self._etc}/seals\"")
        os.makedirs(self.folder, mode=0o700)
        handle = os.open(self.folder, os.O_RDONLY | os.O_DIRECTORY | os.O_NOFOLLOW)
        with files.closing(handle):
            os.fchown(handle, *numbers_of(self._owner))

    @property
    def _removal(self) -> str:
        """How a file of the folder is removed: by the folder's user, who may put a link to one of root's in the folder's place."""
        return f"remove it as {self._owner}"

    def faults(self, neighbour: str, has_plain_taylor: bool = False) -> Iterator[str]:
        """What is wrong with the file of a neighbour, and what to do. One that has Taylor UUCP alone needs none."""
        path = typed(self.path(neighbour))
        if has_plain_taylor:
            if self.keys(neighbour):
                yield f"{path} has a key, and {neighbour} has Taylor UUCP alone, so that nothing it sends is taken: {self._removal}."
            return
        try:
            seen = os.lstat(self.path(neighbour))
        except OSError as error:
            yield (
                f"{path}: {error.strerror}, so no bundle goes to {neighbour} or comes from it: uuspool-setup {neighbour} seal makes a key, "
                f"and uuspool-setup {neighbour} seal none says that its bundles are not sealed."
            )
            return
        if not stat.S_ISREG(seen.st_mode):
            yield f"{path} is no file, but perhaps a link: {self._removal}."
            return
        if user_name(seen.st_uid) != self._owner or seen.st_mode & _PRIVATE:
            yield f"{path} has to be {self._owner}'s alone: {giving(self.path(neighbour), self._owner, seen) if self._is_named_by_root else self._removal}"
            return
        if self.is_unsealed(neighbour):
            return
        if not self.keys(neighbour):
            yield f"{path} has no key of 64 hex digits: uuspool-setup {neighbour} seal adds one."
        elif not _KEYS.fullmatch(self._read(neighbour) or b""):
            yield (
                f"{path} has a line that is no key, or more than a thousand, so no bundle goes to {neighbour} or comes from it: each line has to be 64 "
                "hex digits and a line feed."
            )


def giving(path: str, owner: str, seen: os.stat_result) -> str:
    """The lines by which root gives a user a file in a folder of this user's, who may put a link there meanwhile. (One of somebody else may
    come from the public folder, out of which this user may move any file.)"""
    its, whose = typed(path), user_name(seen.st_uid)
    if whose not in (owner, user_name(0)):
        return f"it is {whose}'s, so move it away as {owner}, and put back {owner}'s own."
    return f"chown -h {owner} {its}; {line_as(owner, f'chmod 600 {its}')}"


def key_in(text: bytes) -> str:
    """The key that the neighbour's site printed."""
    line = text.decode(errors="replace").strip()
    if not _KEY.fullmatch(line):
        raise Failure(USAGE, "standard input has no key, which is a line of 64 hex digits")
    return line


def add(session: Session, found: settings.Settings, owner: str, name: str, words: Sequence[str]) -> None:
    """Gives a neighbour a key: a new one, or with `-` the one that its site printed. With `none` its bundles aren't
    sealed."""
    if list(words) not in ([], ["-"], ["none"]):
        raise Failure(USAGE, f"usage: uuspool-setup {name} seal [- | none]")
    if not found.seals:
        raise Failure(
            NOT_SET_UP,
            f'{found.path} names no folder for keys: add the line seals = "{session.etc}/seals". From then on each neighbour '
            "needs a file there, which uuspool-setup NAME seal makes",
        )
    if list(words) != ["none"] and carriers.has_plain_taylor(session, name):
        raise Failure(
            NOT_SET_UP,
            f"{name} has Taylor UUCP alone, as {carriers.entry_of(session, name)} says, and so no bundles: with a key nothing it sends "
            f"would be taken. If it has uuspool now, begin with uuspool-setup {name} {carriers.BY_BUNDLES}",
        )
    keys = KeyFiles(found.seals, owner, session.etc)
    if list(words) == ["none"]:
        keys.leave_unsealed(name)
        session.print(f"The bundles of {name} are not sealed.")
        return
    key = key_in(session.processes.read_input(0, 100, session.call_limit) or b"") if words else os.urandom(32).hex()
    is_first = keys.add(name, key)
    if not words:
        session.print(f"Run this as root at {name}, and give it the line below it as its input, on a way that nobody else reads:")
        session.print(f"uuspool-setup {found.name} seal -")
        session.print(key)
    if not is_first:
        session.print(f"{keys.path(name)} has earlier keys. Once both sites have this one, make it the first line there as the spool's user, and then remove the others.")
