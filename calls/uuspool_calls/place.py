"""The place of the spool's folder, in which another folder takes its place in one step.

What is made for that is in `NAME.restoring` beside it. Before the step this folder becomes `NAME.before.MOMENT`, which only
who runs the command can enter. After the step the folder that was the spool's is in it, so no line that began in that
folder finds its spool there.

If it is a mount point, or others may write the folder that it is in, no other one can take its place. Then `NAME.restoring` is in it, of the
spool's user, and what is in both is exchanged name by name. So it is if the file system can't exchange folders."""
import contextlib
import errno
import fcntl
import os
import shutil
import stat
import time
from collections.abc import Callable, Collection, Sequence

from . import byname, clock, files, kernel
from .copies import Target
from .errors import LATER, Failure
from .session import acting_as

INNER = "spool"  # the folder that is made, and after the step the one that was there
OLD = "old"  # the folder of what was there, if that is exchanged name by name
ASIDE = ".aside"  # ends the name of the spool in the folder that was there
_FOLDER = os.O_RDONLY | os.O_DIRECTORY | os.O_NOFOLLOW | os.O_CLOEXEC
_OTHERS_WRITE = 0o022
_LOOKS, _PAUSE = 50, 0.1  # how often it is looked whether somebody works there, and the seconds between
_NEVER = (errno.EBUSY, errno.EXDEV, errno.EINVAL, errno.ENOSYS, errno.EOPNOTSUPP)  # what rename says of a mount point, or if it can't


class Place:
    """The folder of a spool, which belongs to this user, and the folder that it is in."""

    def __init__(self, folder: str, owner: str, spool: str) -> None:
        self.path, self._owner, self._spool = os.path.realpath(folder), owner, spool
        self._lock = f"{self.path}/{spool}-lock"
        self.parent, self.name = os.path.split(self.path)
        self._restoring = f"{self.name}.restoring"
        self._room: Target | None = None
        self._parent = os.open(self.parent, _FOLDER)
        try:
            self.handle = os.open(self.name, _FOLDER, dir_fd=self._parent)
        except BaseException:
            os.close(self._parent)
            raise
        self.seen = os.fstat(self.handle)
        self.is_within = not self._may_be_replaced()  # whether what is made is in it
        self._base = self.handle if self.is_within else self._parent
        self._base_owner = owner if self.is_within else ""  # who works there for root

    def _may_be_replaced(self) -> bool:
        seen, own = os.fstat(self._parent), os.geteuid()
        return seen.st_uid in (0, own) and not seen.st_mode & _OTHERS_WRITE and _mount_of(self.handle) == _mount_of(self._parent)

    def __enter__(self) -> "Place":
        return self

    def __exit__(self, *error: object) -> None:
        if self._room:
            if self._lives_at(self._restoring) and not self._has_old(self._room.handle):
                self._remove(self._restoring)
            self._room.close()
        os.close(self.handle)
        os.close(self._parent)

    # ---- who works there

    def workers(self) -> list[str]:
        """The processes that work in the folder, or have a file in it open, as far as this user may know."""
        users = {0, self.seen.st_uid}
        found = ((int(it), _used(f"/proc/{it}", self.path, users)) for it in os.listdir("/proc") if it.isdigit() and int(it) != os.getpid())
        return [f"process {number} ({_name_of(number)}) has {paths[0]}" for number, paths in sorted(found) if paths and not self._waits(paths)]

    def _waits(self, paths: Sequence[str]) -> bool:
        """Whether a process that has these is a line that waits for the turn. Then it opens the spool that is there, or fails if it is in
        a folder of root's by then."""
        others = set(paths) - {self._lock}
        return not others or (others == {self.path} and self._lock in paths and os.geteuid() == 0)

    def wait_for_nobody(self, pause: Callable[[float], None]) -> None:
        """Failure if processes work in the folder for some time. (Lines of members begin again and again.)"""
        for _ in range(_LOOKS):
            if not self.workers():
                return
            pause(_PAUSE)
        self.expect_nobody()

    def expect_nobody(self) -> None:
        """Failure if a process works in the folder. It would go on in the folder that was there."""
        if workers := self.workers():
            more = f", and {len(workers) - 1} more" if len(workers) > 1 else ""
            raise Failure(LATER, f"{workers[0]}{more}: stop uuspool-night, mailers, calls and what users queue, also lines that wait, and leave the folder")

    # ---- what takes the place

    def begin(self) -> Target:
        """A new folder for what is made. What a killed run left is ended."""
        self._end_former()
        try:
            with acting_as(self._base_owner):
                self._room = Target(self._restoring, self._base, self._base_owner)
        except PermissionError:
            raise Failure(LATER, f"{os.path.dirname(self.room)} can't be written, so that nothing takes the place of {self.path}: let root run this") from None
        _lock(self._room.handle, self.room)
        if os.geteuid() == 0 and not self.is_within:
            os.fchmod(self._room.handle, 0o711)  # (The owner of the spool works in it.)
        return self._room

    def _end_former(self) -> None:
        """Removes what a killed run made, or finishes what it began, if there is no spool because of that."""
        if files.look(self._restoring, self._base, follows=False):
            with acting_as(self._base_owner):
                handle = os.open(self._restoring, _FOLDER, dir_fd=self._base)
            with files.closing(handle):
                _lock(handle, self.room)
                if not self._has_old(handle):
                    self._remove(self._restoring)
                else:
                    if files.look(f"{INNER}/{self._spool}", handle, follows=False) and not files.look(self._spool, self.handle, follows=False):
                        self._exchange_names(handle)
                    self._keep_old(handle)
        if not self.is_within:
            self._remove_second_names()

    @property
    def room(self) -> str:
        """The path of that folder."""
        return self._path_of(self._restoring)

    def _path_of(self, name: str) -> str:
        return f"{self.path if self.is_within else self.parent}/{name}"

    def exchange(self) -> str:
        """The made folder takes the place. Where the one that was there is, or nothing if the file system can't do this."""
        assert self._room
        name = self._free_name()
        os.fchmod(self._room.handle, 0o700)
        os.rename(self._restoring, name, src_dir_fd=self._parent, dst_dir_fd=self._parent)
        try:
            files.sync(self._room.handle)
            kernel.exchange(self._parent, self.name, self._room.handle, INNER)
        except OSError as error:
            os.rename(name, self._restoring, src_dir_fd=self._parent, dst_dir_fd=self._parent)
            if error.errno in _NEVER:
                return ""
            raise
        return f"{self.parent}/{name}/{INNER}"

    def exchange_names(self) -> str:
        """What is in the made folder takes the place of what was there. Where that is."""
        assert self._room
        self._room.folder(OLD, self.seen).sync()
        files.sync(self._room.handle)
        files.sync(self._base)
        self._exchange_names(self._room.handle)
        return f"{self.room}/{OLD}"

    def _exchange_names(self, room: int) -> None:
        with self._opened(INNER, room) as made, self._opened(OLD, room) as old, acting_as(self._owner):
            byname.exchange(self.handle, made, old, self._spool)

    def _opened(self, name: str, room: int) -> contextlib.AbstractContextManager[int]:
        with acting_as(self._base_owner):
            return files.opened(name, _FOLDER, folder=room)

    def _has_old(self, room: int) -> bool:
        """Whether something was taken out of the spool's folder."""
        with contextlib.suppress(FileNotFoundError), self._opened(OLD, room) as old:
            return bool(os.listdir(old))
        return False

    def keep_old(self) -> str:
        """Behind that what was there is kept under another name."""
        assert self._room
        return self._keep_old(self._room.handle)

    def _keep_old(self, room: int) -> str:
        name = self._free_name()
        with acting_as(self._base_owner):
            os.fchmod(room, 0o700)
            shutil.rmtree(INNER, ignore_errors=True, dir_fd=room)
            os.rename(self._restoring, name, src_dir_fd=self._base, dst_dir_fd=self._base)
            files.sync(self._base)
        return f"{self._path_of(name)}/{OLD}"

    def put_aside(self, made: Target, spool: str) -> None:
        """Behind that the spool in the folder that was there gets another name, and all is on the disk."""
        assert self._room
        with acting_as(self._owner):
            if files.look(spool, self.handle, follows=False):
                os.rename(spool, f"{spool}{ASIDE}", src_dir_fd=self.handle, dst_dir_fd=self.handle)
        for handle in self.handle, made.handle, self._room.handle, self._parent:
            files.sync(handle)

    def _remove_second_names(self) -> None:
        """A killed run may have left files of the place with a second name in the folder that was there."""
        for before in (it for it in os.listdir(self._parent) if it.startswith(f"{self.name}.before.")):
            with contextlib.suppress(OSError), files.opened(f"{before}/{INNER}", _FOLDER, folder=self._parent) as folder:
                for name in os.listdir(folder):
                    ours, its = files.look(name, self.handle, follows=False), files.look(name, folder, follows=False)
                    if ours and its and stat.S_ISREG(its.st_mode) and os.path.samestat(ours, its):
                        os.unlink(name, dir_fd=folder)

    def _free_name(self) -> str:
        """Under which the folder that was there is kept."""
        head = f"{self.name}.before.{time.strftime('%Y%m%dT%H%M%SZ', time.gmtime(clock.now()))}"
        names = (f"{head}.{it}" if it > 1 else head for it in range(1, 1000))
        return next(it for it in names if not os.path.lexists(self._path_of(it)))

    def _lives_at(self, name: str) -> bool:
        seen = files.look(name, self._base, follows=False)
        return seen is not None and stat.S_ISDIR(seen.st_mode)

    def _remove(self, name: str) -> None:
        """Removes a folder. (In its own folder the spool's user does that, who may put one of root's in its place.)"""
        try:
            with acting_as(self._base_owner):
                shutil.rmtree(name, ignore_errors=True, dir_fd=self._base)
        except RecursionError:
            its = f", as {self._owner}" if self.is_within else ""
            raise Failure(LATER, f"{self._path_of(name)} has too many folders in each other: remove it by rm -rf{its}") from None


def _mount_of(handle: int) -> bytes:
    """The number of the mount that an open folder is on."""
    lines = (files.read_bytes(f"/proc/self/fdinfo/{handle}", 4096) or b"").splitlines()
    return next((it for it in lines if it.startswith(b"mnt_id:")), b"")


def _lock(handle: int, path: str) -> None:
    try:
        fcntl.flock(handle, fcntl.LOCK_EX | fcntl.LOCK_NB)
    except BlockingIOError:
        raise Failure(LATER, f"another uuspool-restore works in {path}") from None


def _used(process: str, folder: str, users: Collection[int]) -> list[str]:
    """Which files of a folder a process has open, and the folder if it works there. Anybody may mount another folder at its path
    for own processes, so the file has to be the same, or a removed one that a process of these users has open."""
    used = []
    for link in f"{process}/cwd", *(f"{process}/fd/{it}" for it in files.names_in(f"{process}/fd")):
        with contextlib.suppress(OSError):
            path = os.readlink(link)
            if path == folder or path.startswith(f"{folder}/"):
                ours = files.look(path, follows=False)
                if os.path.samestat(os.stat(link), ours) if ours else os.stat(process).st_uid in users:
                    used.append(path)
    return used


def _name_of(process: int) -> str:
    return (files.read_bytes(f"/proc/{process}/comm", 64) or b"-").decode(errors="replace").strip()
