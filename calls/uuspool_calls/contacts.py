"""What is kept about the calls of each neighbour: one file of JSON, replaced whole."""
import contextlib
import fcntl
import os
from collections.abc import Iterator

from . import clock, files
from .errors import LATER, Failure
from .texts import is_name, typed
from .values import NamedTuple

_END = ".json"
_MOST = 1 << 16  # bytes of a file


class Contact(NamedTuple):
    """A neighbour's calls. Times are seconds since 1970, 0 if it never happened."""

    called: int = 0  # when a call ended
    begun: bool = False  # a call began, and nothing says that it ended: it is under way, or was killed
    broken: bool = False  # the last call failed, so nobody knows which of its jobs came
    most: int = 0  # bytes of a bundle, since the line fell; 0 for as many as it may have
    bytes: int = 0  # that the last calls carried, both ways, an earlier one counting half as much as the next
    seconds: float = 0.0  # in which they carried these
    told: int = 0  # when it was said last that nothing says how to call
    same: str = ""  # the digest of jobs that were offered, and of which none moved
    carried: int = 0  # when that was carried
    held: bool = False  # no night calls it
    left: str = ""  # the digest of the bundle that left with the last call by Taylor UUCP
    waits: str = ""  # the digest of the bundle that waits in Taylor's spool
    grade: str = ""  # the highest in it
    tried: bool = False  # it was there during a call, so Taylor may have sent a part of it
    named: str = ""  # in which start of the machine the names of files in Taylor's spool moved on


class Contacts:
    """Those of a site, by the folder of its spool."""

    def __init__(self, folder: str) -> None:
        self._folder = f"{folder}/calls"

    def find(self, neighbour: str) -> Contact:
        """What is known of a neighbour. Failure if its file is larger than any that is written here."""
        path = f"{self._folder}/{neighbour}{_END}"
        text = files.read_bytes(path, _MOST + 1) or b""
        if len(text) > _MOST:
            what = f"{typed(path)} has more than {_MOST >> 10} KiB, so these commands did not write it"
            # (Its folder may be a link to one of root's by then, where this user can remove nothing.)
            raise Failure(LATER, f"{what}: remove it as the spool's user, and hold {neighbour} again if it was held")
        kept, usual = files.record_in(text), Contact._field_defaults
        return Contact(**{name: value for name, value in kept.items() if name in usual and type(value) is type(usual[name])})

    def change(self, neighbour: str, **changes: int | str | float) -> None:
        """Keeps what is known now. OSError if that can't be."""
        os.makedirs(self._folder, exist_ok=True)
        with self._alone():
            contact = self.find(neighbour)._replace(**changes)  # type: ignore[arg-type]
            files.write_record(f"{self._folder}/{neighbour}{_END}", contact._asdict())

    def change_if_possible(self, neighbour: str, **changes: int | str | float) -> None:
        """The same, unless the disk is full. Without it something is done once more."""
        with contextlib.suppress(OSError):
            self.change(neighbour, **changes)

    def held(self) -> list[str]:
        """The neighbours that no night calls. (root may type these names.)"""
        names = [name.removesuffix(_END) for name in files.names_in(self._folder) if name.endswith(_END)]
        return [name for name in names if is_name(name) and self.find(name).held]

    @contextlib.contextmanager
    def _alone(self) -> Iterator[None]:
        """No other process changes a file meanwhile. (A call has a lock of its own, as long as it takes.)"""
        with files.opened(self._folder, os.O_RDONLY | os.O_DIRECTORY) as handle:
            fcntl.flock(handle, fcntl.LOCK_EX)
            yield


def is_fresh(moment: int, minutes: int) -> bool:
    """Whether something happened in the last minutes. What is in the future isn't fresh, so that nothing waits
    because the clock was set back."""
    return 0 <= clock.now() - moment < minutes * 60
