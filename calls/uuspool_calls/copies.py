"""Copies of folders by their descriptors: no link is followed, and a copy is on the disk before this ends."""
import contextlib
import errno
import os
import stat
from collections.abc import Callable, Collection

from . import files, turn
from .session import acting_as

_FOLDER = os.O_RDONLY | os.O_DIRECTORY | os.O_NOFOLLOW | os.O_CLOEXEC
_NEW = os.O_WRONLY | os.O_CREAT | os.O_EXCL | os.O_NOFOLLOW | os.O_CLOEXEC
_MODE = 0o777
_SPARE = 64  # descriptors
_BLOCK = 1 << 20  # bytes
_DEEPEST = 64  # folders of a path, below which nothing is copied


class Shorter(OSError):
    """A file became shorter while it was copied, so there is no copy of it."""

    def __init__(self, name: str) -> None:
        super().__init__(errno.ESTALE, "became shorter while it was copied", name)


class Target:
    """A new folder, which is filled. Each folder and file in it is written to the disk by `sync`, and then it becomes
    like the one of which it is a copy. If a user is given, root makes all of it as this user, in whose folder it is."""

    def __init__(self, name: str, parent: int | None = None, owner: str = "") -> None:
        self.owner = owner
        with acting_as(owner):
            os.mkdir(name, 0o700, dir_fd=parent)
            self.handle = os.open(name, _FOLDER, dir_fd=parent)
        self._parts: dict[str, Target] = {}
        self.like: os.stat_result | None = None

    def folder(self, name: str, like: os.stat_result | None = None) -> "Target":
        """A folder in it, which is new, unless this made it before."""
        if name not in self._parts:
            self._parts[name] = Target(name, self.handle, self.owner)
            self._parts[name].like = like
        return self._parts[name]

    def put(self, name: str, source: int) -> None:
        """A new file with the bytes, the mode and the time of an open one, and its owner if this is root. None is left
        if that one became shorter meanwhile."""
        seen = os.fstat(source)
        with acting_as(self.owner), files.opened(name, _NEW, folder=self.handle) as handle:
            if not _copy(source, handle, seen.st_size):
                os.remove(name, dir_fd=self.handle)
                raise Shorter(name)
            _make_like(handle, seen)
            os.utime(handle, ns=(seen.st_atime_ns, seen.st_mtime_ns))

    def put_text(self, name: str, text: str, like: os.stat_result) -> None:
        """A new file with a text, for its owner alone, who is that of another one, if this is root."""
        with acting_as(self.owner), files.opened(name, _NEW, folder=self.handle) as handle:
            files.write_all(handle, text.encode())
            if os.geteuid() == 0:
                os.fchown(handle, like.st_uid, like.st_gid)

    def link(self, name: str, target: str, like: os.stat_result) -> None:
        """A new link, whose owner is that of another one, if this is root."""
        with acting_as(self.owner):
            os.symlink(target, name, dir_fd=self.handle)
            if os.geteuid() == 0:
                os.chown(name, like.st_uid, like.st_gid, dir_fd=self.handle, follow_symlinks=False)

    def sync(self) -> None:
        """Writes everything to the disk."""
        for part in self._parts.values():
            part.sync()
        with acting_as(self.owner):
            for name in os.listdir(self.handle):
                if stat.S_ISREG(os.stat(name, dir_fd=self.handle, follow_symlinks=False).st_mode):
                    with files.opened(name, os.O_RDONLY | os.O_NOFOLLOW | os.O_NONBLOCK, folder=self.handle) as handle:
                        files.sync(handle)
            if self.like:
                _make_like(self.handle, self.like)
            files.sync(self.handle)

    def remove(self, name: str) -> None:
        """Removes a folder in it."""
        import shutil  # (takes long to load)

        with acting_as(self.owner):
            shutil.rmtree(name, ignore_errors=True, dir_fd=self.handle)

    def close(self) -> None:
        """Closes the folders."""
        for part in self._parts.values():
            part.close()
        os.close(self.handle)


def _copy(source: int, target: int, size: int) -> bool:
    """Copies a file. Its holes stay holes, because a user may make them larger than root's disk. Whether it has so many bytes
    to the end."""
    place = 0
    while place < size:
        try:
            place = os.lseek(source, place, os.SEEK_DATA)
            end = min(size, os.lseek(source, place, os.SEEK_HOLE))
        except OSError as error:
            if error.errno != errno.ENXIO:
                raise
            break  # (the rest is a hole, or isn't there any more)
        os.lseek(target, place, os.SEEK_SET)
        while place < end:
            if not (block := os.pread(source, min(_BLOCK, end - place), place)):
                return False
            files.write_all(target, block)
            place += len(block)
    os.ftruncate(target, size)
    return os.fstat(source).st_size >= size


def _make_like(handle: int, seen: os.stat_result) -> None:
    if os.geteuid() == 0:
        os.fchown(handle, seen.st_uid, seen.st_gid)
    os.fchmod(handle, seen.st_mode & _MODE)


class Copier:
    """Copies files as they are at one moment: those that may be opened are opened then, and their bytes are copied by
    `finish`. This is for files that are replaced whole, and never changed. For root the owner of their folder opens them,
    if one is given. Folders and files with some paths aren't copied."""

    def __init__(self, owners: Collection[int] = (), owner: str = "", without: Collection[str] = ()) -> None:
        import resource  # (one command needs it)

        most = resource.getrlimit(resource.RLIMIT_NOFILE)[1]
        with contextlib.suppress(OSError, ValueError):
            resource.setrlimit(resource.RLIMIT_NOFILE, (most, most))
        self._most = resource.getrlimit(resource.RLIMIT_NOFILE)[0] - _SPARE
        self._owners, self._owner, self._without = owners, owner, without
        self._opened: list[tuple[Target, str, int, str]] = []
        self.left_out: list[str] = []  # what isn't copied, and why

    def __enter__(self) -> "Copier":
        return self

    def __exit__(self, *error: object) -> None:
        for _, _, handle, _ in self._opened:
            os.close(handle)

    def take(self, path: str, target: Target, wanted: Callable[[str], bool] = lambda name: True) -> None:
        """Takes the wanted files in a folder, and in the folders below it. A link is copied as a link."""
        with contextlib.suppress(FileNotFoundError):
            self._enter(path, None, path, target, wanted)

    def take_files(self, path: str, target: Target) -> None:
        """Takes what is in a folder, without the folders below it."""
        with contextlib.suppress(FileNotFoundError):
            self._enter(path, None, path, target, None)

    def take_file(self, path: str, target: Target, name: str) -> None:
        """Takes a file, unless it is missing."""
        with contextlib.suppress(FileNotFoundError):
            self._open(path, None, target, name, path)

    def _take(self, folder: int, path: str, target: Target, wanted: Callable[[str], bool] | None) -> None:
        for name in sorted(os.listdir(folder)):
            with contextlib.suppress(FileNotFoundError):
                seen = os.stat(name, dir_fd=folder, follow_symlinks=False)
                if stat.S_ISDIR(seen.st_mode) and wanted is None:
                    self.left_out.append(f"{path}/{name}: is a folder")
                elif stat.S_ISDIR(seen.st_mode) and path.count("/") >= _DEEPEST:
                    self.left_out.append(f"{path}/{name}: is in too many folders")
                elif stat.S_ISDIR(seen.st_mode) and f"{path}/{name}" not in self._without:
                    self._enter(name, folder, f"{path}/{name}", target.folder(name, seen), wanted)
                elif stat.S_ISLNK(seen.st_mode):
                    target.link(name, os.readlink(name, dir_fd=folder), seen)
                elif not stat.S_ISDIR(seen.st_mode) and (wanted is None or wanted(name)) and f"{path}/{name}" not in self._without:
                    self._open(name, folder, target, name, f"{path}/{name}")

    def _enter(self, name: str, folder: int | None, path: str, target: Target, wanted: Callable[[str], bool] | None) -> None:
        try:
            with acting_as(self._owner):
                opened = files.opened(name, _FOLDER, folder=folder)
        except OSError as error:
            self._leave_out(path, error)
            return
        with opened as handle:
            target.like = os.fstat(handle)
            self._take(handle, path, target, wanted)

    def _leave_out(self, path: str, error: OSError) -> None:
        """What vanished meanwhile isn't missing in the copy."""
        if error.errno == errno.ENOENT:
            raise error
        self.left_out.append(f"{path}: {error.strerror}")

    def _open(self, name: str, folder: int | None, target: Target, new: str, path: str) -> None:
        """Opens a file to copy it later, or copies it now if many are open."""
        try:
            with acting_as(self._owner):
                handle = turn.opened(name, os.O_RDONLY, folder)
        except OSError as error:
            self._leave_out(path, error)
            return
        if self._owners and (owner := os.fstat(handle).st_uid) not in self._owners:
            os.close(handle)
            self.left_out.append(f"{path}: belongs to user {owner}")
        elif handle < self._most:
            self._opened.append((target, new, handle, path))
        else:
            with files.closing(handle):
                self._put(target, new, handle, path)

    def _put(self, target: Target, name: str, handle: int, path: str) -> None:
        try:
            target.put(name, handle)
        except Shorter as why:
            self._leave_out(path, why)

    def finish(self) -> None:
        """Copies what is open."""
        while self._opened:
            self._put(*self._opened[-1])
            os.close(self._opened.pop()[2])
