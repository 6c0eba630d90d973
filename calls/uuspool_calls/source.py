"""A copy that uuspool-backup made, of which the spool is put back."""
import contextlib
import itertools
import os
import re
import stat
from collections.abc import Sequence

from . import files, turn
from .copies import Copier, Target
from .errors import LATER, USAGE, Failure
from .settings import Settings
from .texts import typed

MARK = "copied"  # a file of the copy, which has the word by which the log says where it was made
BESIDE = ("calls", "deliver", "refused", "moves", "pieces")  # the folders of a copy that are kept beside the spool
OURS = (*BESIDE, "taylor")  # the folders beside the spool whose names this package gives
_LOCKS = re.compile(r".*(\.lock|\.works|\.port|\.waits|\.answer\.[0-9]+)\Z|\..*\.new\Z", re.S)
_FOLDER = os.O_RDONLY | os.O_DIRECTORY | os.O_CLOEXEC
_OTHERS_WRITE = 0o022
_MOST_OF_SETTINGS = 1 << 20
MOST_OF_A_TEXT = 1 << 17  # bytes of a small file beside the spool


def is_kept(name: str) -> bool:
    """Whether a file in one of these folders says something. Locks don't, nor do files that are being written."""
    return _LOCKS.match(name) is None


class Source:
    """A copy. Nobody else may write it, and what is in its folder spool/ belongs to this user, by number."""

    def __init__(self, path: str, found: Settings, owner: int) -> None:
        self.path, self._settings, self._owner = os.path.abspath(path), found, owner
        self.name = os.path.basename(found.spool)
        self._handle = _opened(self.path)
        try:
            self._spool = os.open("spool", _FOLDER | os.O_NOFOLLOW, dir_fd=self._handle)
        except OSError:
            os.close(self._handle)
            raise Failure(USAGE, f"{self.path} has no folder spool: name a folder that uuspool-backup made") from None
        try:
            self._expect_own_site()
            self.word = self.text(f"{self.name}-word").strip()
            self.mark, *sizes = self.text(MARK).split() or [""]
            self._expect_sizes(sizes)
            if not self.word:
                raise Failure(LATER, f"{self.path}/spool has no file {self.name}-word, so neighbours would take its jobs for others: see man uuspool-trouble")
        except BaseException:
            self.__exit__()
            raise

    def __enter__(self) -> "Source":
        return self

    def __exit__(self, *error: object) -> None:
        os.close(self._spool)
        os.close(self._handle)

    def _expect_own_site(self) -> None:
        import tomllib  # (takes long to load)

        seen = files.look(self.name, self._spool, follows=False)
        if seen is None:
            raise Failure(LATER, f"{self.path}/spool has no file {self.name}, which {self._settings.path} names: name a copy of this site")
        if self.path.endswith(".new"):
            raise Failure(LATER, f"{self.path} is the part of a copy that a killed uuspool-backup left: name another copy")
        text = (files.read_bytes(f"{self.path}/settings.toml", _MOST_OF_SETTINGS) or b"").decode(errors="replace")
        with contextlib.suppress(ValueError, RecursionError):
            name = tomllib.loads(text).get("name")
            if name not in (None, self._settings.name):
                raise Failure(LATER, f"{self.path} is a copy of another site, {name}: name a copy of {self._settings.name}")

    def _expect_sizes(self, sizes: Sequence[str]) -> None:
        """The files of the spool are as long as they were when they were copied. (A log that was cut off is an older spool.)"""
        for end, size in zip(("", "-wal"), sizes):
            seen = files.look(f"{self.name}{end}", self._spool, follows=False)
            if seen is None or str(seen.st_size) != size:
                its = f"has {seen.st_size} bytes" if seen else "is missing"
                raise Failure(LATER, f"{self.path}/spool/{self.name}{end} {its}, and had {size} in the copy that was made: copy it again, or name another copy")

    def put_spool(self, target: Target) -> None:
        """Copies the spool's files."""
        for end in "", "-wal", "-word":
            handle = self._opened_own(f"{self.name}{end}")
            if handle is not None:
                with files.closing(handle):
                    target.put(f"{self.name}{end}", handle)

    def take(self, folder: str, target: Target, copier: Copier) -> None:
        """Takes a folder that the copy has beside the spool, or one below such a folder."""
        for path in itertools.accumulate(folder.split("/"), "{}/{}".format):
            if not (seen := files.look(path, self._spool, follows=False)):
                return
            target = target.folder(os.path.basename(path), seen)
        copier.take(f"{self.path}/spool/{folder}", target)

    def _opened_own(self, name: str) -> int | None:
        """A file of the spool's user. (Another one's would be a file that the site can't open.)"""
        try:
            handle = turn.opened(name, os.O_RDONLY, self._spool)
        except FileNotFoundError:
            return None
        except OSError as error:
            raise Failure(LATER, f"{self.path}/spool/{name}: {error.strerror}") from None
        if (owner := os.fstat(handle).st_uid) != self._owner:
            os.close(handle)
            raise Failure(LATER, f"{typed(f'{self.path}/spool/{name}')} belongs to user {owner}, not {self._owner}: correct it by chown -h")
        return handle

    def text(self, name: str) -> str:
        """What a small file beside the spool of the copy says, or nothing if it isn't there."""
        handle = self._opened_own(name)
        if handle is None:
            return ""
        with files.closing(handle):
            return os.pread(handle, MOST_OF_A_TEXT, 0).decode(errors="replace")


def _opened(path: str) -> int:
    try:
        handle = os.open(path, _FOLDER)
    except OSError as error:
        raise Failure(USAGE, f"{path}: {error.strerror}: name a folder that uuspool-backup made") from None
    seen = os.fstat(handle)
    if seen.st_uid not in (0, os.geteuid()) or stat.S_IMODE(seen.st_mode) & _OTHERS_WRITE:
        os.close(handle)
        raise Failure(LATER, f"others may write {path}, or it belongs to another user: copy it to a folder of your own")
    return handle
