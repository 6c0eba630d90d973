"""The public folder: where files of neighbours come to, and from where they are fetched.

A neighbour has a folder of its own there, unless a table names another one. Names come from strangers, and who
may write a folder may put links there meanwhile. So each folder on the way is opened by its name alone in the one
above it, without following a link, and what a path says counts only for what was opened. Links lead to the folder
itself, but none that somebody besides root and this user could put there. A new file gets its name when it is whole,
and takes that of no file of another owner or sender: a number is added."""
import contextlib
import errno
import itertools
import os
import stat
from collections.abc import Callable, Iterator, Sequence
from functools import partial

from . import clock
from .errors import Delay, Refusal
from .files import closing, copy_all, look, opened, read_bytes
from .values import NamedTuple

_OPEN_FOLDER = os.O_RDONLY | os.O_DIRECTORY | os.O_NOFOLLOW | os.O_CLOEXEC
_PASS_FOLDER = os.O_PATH | os.O_DIRECTORY | os.O_NOFOLLOW | os.O_CLOEXEC
_MOST_LINKS = 40
_OPEN_FILE = os.O_RDONLY | os.O_NONBLOCK | os.O_NOCTTY | os.O_CLOEXEC
_MAKE_FILE = os.O_WRONLY | os.O_CREAT | os.O_EXCL | os.O_NOFOLLOW | os.O_CLOEXEC
_MAKE_NAMELESS = os.O_WRONLY | os.O_TMPFILE | os.O_CLOEXEC
_COMMON = "/var/spool/uucppublic"
SETTINGS = "uuspool.toml"
MARK = ".uuspool"  # in the folder of a neighbour. No path of a job has such a name
_AHEAD = 2 * 86400  # seconds by which the mark is newer than any file there
_CANNOT_BE_NAMELESS = (errno.EOPNOTSUPP, errno.EISDIR, errno.ENOENT)  # a file, on this disk
_SIGNS = frozenset("'\"\\")  # that no name has
_FIRST_NUMBER, _MOST_NUMBERS = 2, 1000
_MOST_FOLDERS = 1000  # that are looked at for files which a neighbour didn't bring
_NEW = ".new."  # begins the name of a file that gets its own when it is whole
_LEFT = 86400  # seconds after which such a file is what a kill left
_BLOCK = 1 << 20


class Names(NamedTuple):
    """What is known of the names that files of a sender have, by paths below its folder."""

    replaces: Callable[[str, bool], bool]  # whether a new file takes a name from a file of the sender. It is said if one is there
    put_beside: Callable[[str], None]  # a file gets a name with a number, which none takes from it
    is_of_job: Callable[[str], bool]  # whether the job put the file of a name before, and comes again after a stop

    def below(self, folder: str) -> "Names":
        """The same by names in a folder, whose path ends with `/` unless it is that of the sender."""
        return Names(
            lambda name, is_there: self.replaces(folder + name, is_there), lambda name: self.put_beside(folder + name), lambda name: self.is_of_job(folder + name)
        )


Held = Callable[[str], contextlib.AbstractContextManager[Names]]  # the names, for the file of one. No other file gets any meanwhile
_ALWAYS = Names(lambda name, is_there: True, lambda name: None, lambda name: True)
_NEVER = Names(lambda name, is_there: False, lambda name: None, lambda name: True)


def has_number(name: str) -> bool:
    """Whether a file may have got its name because another one had the name without the number."""
    number = name.rpartition(".")[2]
    return number.isascii() and number.isdecimal() and number[0] != "0" and _FIRST_NUMBER <= int(number[:4]) < _MOST_NUMBERS


def find(environment_folder: str, table: str, neighbour: str, own: str) -> "Public":
    """The public folder as a neighbour has it, or this site itself, if there is none: that of its last line in a
    table, or else one of its name in the common folder. Jobs of this site go to the common folder. They are of many users, none of whom is
    alone there."""
    common, folders = environment_folder or _COMMON, read(table)
    others = [_plain(folder) for name, folder in folders.items() if name not in (neighbour, own)]
    folder = folders.get(neighbour or own)
    if folder is None:
        return Public(common, own, neighbour, others=others, is_common=not neighbour)
    all_of_them = [*map(_plain, (*folders.values(), common))]
    is_common = _plain(folder) == _plain(common)
    return Public(folder, own, is_alone=bool(neighbour) and all_of_them.count(_plain(folder)) == 1, others=others, is_common=is_common)


def read(table: str) -> dict[str, str]:
    """The folders that a table names, of each neighbour that of its last line."""
    lines = (read_bytes(table) or b"").decode(errors="surrogateescape").split("\n")
    rows = [line.split(maxsplit=1) for line in lines]
    return {words[0]: words[1].rstrip() for words in rows if len(words) == 2}


def _plain(folder: str) -> str:
    """The one name of a folder, however a table writes it."""
    return os.path.realpath(folder) if folder.startswith("/") else folder


@contextlib.contextmanager
def found(path: str, owner: int, is_enough: Callable[[os.stat_result], bool] = lambda folder: False) -> Iterator[int]:
    """The folder of a path, opened so that others can be opened in it, or the first one on the way that is enough. Delay if
    somebody besides root and the owner may put something else in its place: the next file would come there, and one from
    there would be sent."""
    with closing(os.open("/", _PASS_FOLDER)) as root:
        at, links, names = os.dup(root), 0, path.split("/")[::-1]
        try:
            while names and not is_enough(os.fstat(at)):
                name = names.pop()
                if name in ("", "."):
                    continue
                seen = look(name, at, follows=False)
                if not _is_fixed(os.fstat(at), seen, (0, owner)):
                    raise Delay(f"others may write {_place_of(at)}, and so put something else in the place of {path}")
                before = at
                if seen and stat.S_ISLNK(seen.st_mode) and (links := links + 1) <= _MOST_LINKS:
                    target = os.readlink(name, dir_fd=at)
                    names += target.split("/")[::-1]
                    at = os.dup(root if target.startswith("/") else at)
                else:
                    at = os.open(name, _PASS_FOLDER, dir_fd=at)
                os.close(before)
            yield at
        finally:
            os.close(at)


def is_led_by_root(folder: str) -> bool:
    """Whether root may type a line with a path in a folder, since nobody else may put a link in the place of it, or of one on the way.
    (Anybody but root risks no more than own files.)"""
    try:
        with found(folder, 0):
            return True
    except FileNotFoundError:
        return True
    except (OSError, Delay):
        return os.geteuid() != 0


def _is_fixed(folder: os.stat_result, its: os.stat_result | None, owners: tuple[int, int]) -> bool:
    """Whether nobody but these users may put something else in the place of what is in a folder."""
    is_kept = its is not None and its.st_uid in owners and folder.st_mode & stat.S_ISVTX != 0
    return folder.st_uid in owners and (is_kept or not folder.st_mode & 0o022)


def _is_name(name: str) -> bool:
    return name != "" and name[0] != "." and name.isprintable() and _SIGNS.isdisjoint(name)


def inside(path: str) -> str | None:
    """What a path is below the public folder, or None if it isn't below it: it starts at the root or in
    somebody's home, or has a name that begins with a dot, or one with a quote, a backslash or a control
    character. (Scripts that clean such folders may read these signs away, so that `\\..` leads out.)"""
    rest = path.removeprefix("~/")
    is_below = all(map(_is_name, rest.split("/"))) and not rest.startswith("~")
    return rest if is_below else None


def expect_inside(path: str, own: str) -> None:
    """Refusal of a path where no file can come. What the spool's user runs in a folder goes by the settings there, if that
    are this user's, as what comes is."""
    rest = inside(path)
    if rest is None:
        raise Refusal(f"{own} takes files below its public folder alone (~/NAME), not {path}")
    if SETTINGS in rest.split("/"):
        raise Refusal(f"{own} takes no file {SETTINGS}, because whoever works in its folder would go by it")


class Public:
    """The public folder of this site as one sender has it. Its files come to a folder of its name there, if it
    is a neighbour that shares the public folder. If it is alone where its files come, a newer file of it replaces
    an older one."""

    def __init__(self, folder: str, own: str, neighbour: str = "", is_alone: bool = False, others: Sequence[str] = (), is_common: bool = False) -> None:
        self._folder, self._own, self._neighbour = folder, own, neighbour
        self.is_common = is_common  # files come beside the folders of neighbours
        self._others = others  # where files of other neighbours come
        self._is_alone = is_alone or bool(neighbour)

    def put(self, path: str, content: int, held: Held = lambda name: contextlib.nullcontext(_ALWAYS)) -> str:
        """Writes the bytes of an open file to a path, or to one with a number, and says to which. The file, and
        each missing folder on the way, are on the disk before this ends. It replaces none that is newer than it, and none that was
        put beside another one."""
        expect_inside(path, self._own)
        below = path.removeprefix("~/")
        *folders, name = below.split("/")
        try:
            with self._place() as at, contextlib.ExitStack() as on_the_way:
                for folder in folders:
                    at = on_the_way.enter_context(_entered(at, folder))
                    self._expect_ours(at, path)
                with _New(at, content) as new, held(below) if self._is_alone else contextlib.nullcontext(_NEVER) as names:
                    named = new.take(name, names.below(below.removesuffix(name)))
        except _LeadsOut:
            raise Refusal(f"{path} is a folder, or leads out of the public folder of {self._own}") from None
        except OSError as error:
            raise Delay(f"{path} cannot be written below {self._folder}: {error.strerror}") from None
        return f"{path.removesuffix(name)}{named}"

    def _expect_ours(self, folder: int, path: str) -> None:
        """Refusal of a path that leads to where files of another one come, because it would look as if that had brought it."""
        if _place_of(folder) in self._others or (not self._neighbour and _is_marked(folder)):
            raise Refusal(f"{path} is where files of another one come than of whoever sent it to {self._own}")

    @property
    def place(self) -> str:
        """The folder to which the files of the sender come."""
        return f"{self._folder}/{self._neighbour}".rstrip("/")

    @contextlib.contextmanager
    def _top(self) -> Iterator[int]:
        """The folder itself."""
        with contextlib.ExitStack() as held:
            try:
                place = held.enter_context(found(self._folder, os.geteuid()))
                top = held.enter_context(opened(".", _OPEN_FOLDER, folder=place))
            except (FileNotFoundError, NotADirectoryError):
                raise Delay(f"there is no public folder {self._folder} at {self._own}") from None
            except OSError as error:
                raise Delay(f"the public folder {self._folder} at {self._own} cannot be opened: {error.strerror}") from None
            yield top

    @contextlib.contextmanager
    def _place(self) -> Iterator[int]:
        """Where the files of the sender come."""
        with self._top() as top:
            if not self._neighbour:
                yield top
                return
            with self._entered_neighbour(top) as place:
                yield place

    @contextlib.contextmanager
    def _entered_neighbour(self, top: int) -> Iterator[int]:
        """The folder of the neighbour, where only this site writes. It is made if it is missing, and marked. (A
        local user may have put something else there, so the job waits.)"""
        path = f"{self._folder}/{self._neighbour}"
        with contextlib.ExitStack() as held:
            try:
                place = held.enter_context(_entered(top, self._neighbour))
            except _LeadsOut:
                raise Delay(f"{path} is no folder, so no file of {self._neighbour} can come: remove it") from None
            seen = os.fstat(place)
            if seen.st_uid not in (os.geteuid(), 0) or seen.st_mode & 0o022:
                raise Delay(f"{path}, to which files of {self._neighbour} come, is another user's, or others may write it: remove it")
            if _has_files_of_others(place):
                raise Delay(f"{path}, to which files of {self._neighbour} come, has files that it did not bring: move them away as the spool's user")
            _mark(place)
            yield place

    @contextlib.contextmanager
    def opened(self, path: str) -> Iterator[int]:
        """The file that a neighbour asks for: its own, or one for all, but not one that another neighbour brought.
        It may be a link to another one in the folder, so where it is gets checked after it is opened. It may be a second
        name that somebody gave to a file of others, so it has to be one that everybody may read. What is missing is refused like
        what another neighbour brought, so that nobody learns the names of that."""
        below = inside(path)
        if below is None:
            raise Refusal(f"{self._own} gives files below its public folder alone (~/NAME), not {path}")
        with self._top() as top, closing(self._open(top, path, below)) as handle:
            seen = os.fstat(handle)
            if seen.st_nlink > 1 and not seen.st_mode & stat.S_IROTH:
                raise Refusal(f"{path} is another name of a file at {self._own} that not everybody may read")
            place, home = _place_of(handle), f"{_place_of(top)}/"
            if not place.startswith(home):
                raise Refusal(f"{path} leads out of the public folder of {self._own}")
            on_the_way = itertools.accumulate(place.removeprefix(home).split("/")[:-1], "{}/{}".format)
            is_others = any(it.startswith(home) and place.startswith(f"{it}/") for it in self._others)
            if is_others or any(it != self._neighbour and _is_neighbours(top, it) for it in on_the_way):
                raise Refusal(f"{self._own} gives no file {path}")
            yield handle

    def _open(self, top: int, path: str, below: str) -> int:
        if self._neighbour:
            with contextlib.suppress(OSError):
                return _opened_file(f"{self._neighbour}/{below}", top)
        try:
            return _opened_file(below, top)
        except OSError:
            raise Refusal(f"{self._own} gives no file {path}") from None


def _opened_file(path: str, folder: int) -> int:
    """The file of a path. A device isn't opened, to which somebody's link may lead, since that alone may do something."""
    with opened(path, os.O_PATH | os.O_CLOEXEC, folder=folder) as place:
        if not stat.S_ISREG(os.fstat(place).st_mode):
            raise OSError(errno.EINVAL, os.strerror(errno.EINVAL))
        return os.open(f"/proc/self/fd/{place}", _OPEN_FILE)


class _LeadsOut(Exception):
    """A folder on the way is something else, or a folder has the file's name."""


class _New:
    """A new file in an open folder. It has no name until it is whole, or if the file system has no such files, one
    that begins with a dot."""

    def __init__(self, folder: int, content: int) -> None:
        self._folder, self._content, self._name = folder, content, ""

    def __enter__(self) -> "_New":
        try:
            self._handle = os.open(".", _MAKE_NAMELESS, 0o600, dir_fd=self._folder)
        except OSError as error:
            if error.errno not in _CANNOT_BE_NAMELESS:
                raise
            self._name = _name_of_a_new_file(self._folder)
            self._handle = os.open(self._name, _MAKE_FILE, 0o600, dir_fd=self._folder)
        try:
            copy_all(self._content, self._handle)
            os.fchmod(self._handle, 0o644)
            os.fsync(self._handle)
        except BaseException:
            self._close()
            raise
        return self

    def __exit__(self, *error: object) -> None:
        self._close()

    def _close(self) -> None:
        os.close(self._handle)
        if self._name:
            with contextlib.suppress(OSError):
                os.remove(self._name, dir_fd=self._folder)

    def take(self, name: str, names: Names) -> str:
        """Takes a name, or the first with a number that no other file has, which is said before. A file of the same job that has these
        bytes already is its own: it comes again after a stop. (One of another job may be replaced later.)"""
        replaces = names.replaces(name, look(name, self._folder, follows=False) is not None)
        if _is_folder(self._folder, name):
            raise _LeadsOut
        named = name if self._takes(name, names, replaces) else self._take_beside(name, names)
        os.fsync(self._folder)
        return named

    def _take_beside(self, name: str, names: Names) -> str:
        for number in range(_FIRST_NUMBER, _MOST_NUMBERS):
            numbered = f"{name}.{number}"
            if look(numbered, self._folder, follows=False) is None or self._is_own(numbered, names):
                names.put_beside(numbered)
                if self._takes(numbered, names, replaces=False):
                    return numbered
        raise OSError(errno.EEXIST, f"there are {_MOST_NUMBERS} files of this name")

    def _takes(self, name: str, names: Names, replaces: bool) -> bool:
        try:
            self._link(name)
            return True
        except FileExistsError:
            if not replaces:
                return self._is_own(name, names)
        if not _is_ours(self._folder, name):
            return False
        new = _name_of_a_new_file(self._folder)
        self._link(new)
        os.replace(new, name, src_dir_fd=self._folder, dst_dir_fd=self._folder)
        return True

    def _is_own(self, name: str, names: Names) -> bool:
        """Whether the job put these bytes at a name before."""
        return names.is_of_job(name) and _is_ours(self._folder, name) and _has_bytes(self._folder, name, self._content)

    def _link(self, name: str) -> None:
        if self._name:
            os.link(self._name, name, src_dir_fd=self._folder, dst_dir_fd=self._folder, follow_symlinks=False)
        else:
            os.link(f"/proc/self/fd/{self._handle}", name, dst_dir_fd=self._folder, follow_symlinks=True)


def _name_of_a_new_file(folder: int) -> str:
    """The name of a file that isn't whole yet. What a kill left of others in this folder is removed."""
    before = clock.now() - _LEFT
    for name in os.listdir(folder):
        if name.startswith(_NEW) and _is_ours(folder, name):
            with contextlib.suppress(OSError):
                if os.stat(name, dir_fd=folder, follow_symlinks=False).st_mtime < before:
                    os.remove(name, dir_fd=folder)
    return f"{_NEW}{os.urandom(8).hex()}"


def _place_of(handle: int) -> str:
    """Where an open file is."""
    return os.readlink(f"/proc/self/fd/{handle}")


@contextlib.contextmanager
def _readable_by_all() -> Iterator[None]:
    before = os.umask(0o022)
    try:
        yield
    finally:
        os.umask(before)


@contextlib.contextmanager
def _entered(above: int, name: str) -> Iterator[int]:
    """The folder of this name in an open one. It is made if it is missing."""
    with _readable_by_all(), contextlib.suppress(FileExistsError):
        os.mkdir(name, 0o777, dir_fd=above)
        os.fsync(above)
    try:
        folder = opened(name, _OPEN_FOLDER, folder=above)
    except OSError as error:
        if error.errno in (errno.ENOTDIR, errno.ELOOP):  # a file, or a link
            raise _LeadsOut from None
        raise
    with folder as handle:
        yield handle


def _is_folder(folder: int, name: str) -> bool:
    """Whether this name is a folder, or a link to one."""
    its = look(name, folder)
    return its is not None and stat.S_ISDIR(its.st_mode)


def _mark(folder: int) -> None:
    """Marks the folder of a neighbour. What removes old files, such as Debian's uudemon.day, has to remove the mark
    last, so it gets a time to come, and never an earlier one: while the clock was ahead, files got such times, too."""
    if not _is_marked(folder):
        try:
            os.close(os.open(MARK, _MAKE_FILE, 0o600, dir_fd=folder))
        except FileExistsError:
            if not _is_marked(folder):  # (by another delivery meanwhile)
                raise
    its = look(MARK, folder, follows=False)
    ahead = max(clock.now() + _AHEAD, its.st_mtime if its else 0)
    with contextlib.suppress(PermissionError):  # (if it is root's)
        os.utime(MARK, (ahead, ahead), dir_fd=folder, follow_symlinks=False)


def _is_marked(folder: int, of_any_site: bool = False) -> bool:
    """Whether this is the folder of a neighbour, of this site or of any on this machine, each of which has a user. (Others can't
    make such a mark, but Taylor UUCP brings one into a folder that others may write.)"""
    its, seen = look(MARK, folder, follows=False), os.fstat(folder)
    owners = (os.geteuid(), 0, *([seen.st_uid] if of_any_site else []))
    return its is not None and its.st_uid in owners and seen.st_uid in owners and not seen.st_mode & 0o022


def _has_files_of_others(folder: int) -> bool:
    """Whether the folder of a neighbour has files though it has no mark: they were sent there before the neighbour was a system, and would
    look as if it had brought them. (Another delivery may mark it meanwhile.)"""
    has_mark = partial(look, MARK, folder, follows=False)
    return not has_mark() and _has_files(folder) and not has_mark()


def _has_files(folder: int) -> bool:
    """Whether there are files in a folder, or below it. (One that can't be looked at counts as a file, and so do very many.)"""
    paths = ["."]
    for path in paths:  # (which grows meanwhile)
        try:
            with opened(path, _OPEN_FOLDER, folder=folder) as below, os.scandir(below) as entries:
                found = [*entries]
                is_enough = any(it.is_file(follow_symlinks=False) for it in found)
                paths += [f"{path}/{it.name}" for it in found if it.is_dir(follow_symlinks=False)]
        except OSError:
            return True
        if is_enough or len(paths) > _MOST_FOLDERS:
            return True
    return False


def has_files_of_others(path: str) -> bool:
    """The same of a path, of which this user is the site's."""
    with contextlib.suppress(OSError), opened(path, _OPEN_FOLDER) as folder:
        return _has_files_of_others(folder)
    return False


def _is_neighbours(top: int, name: str) -> bool:
    with contextlib.suppress(OSError), opened(name, _OPEN_FOLDER, folder=top) as folder:
        return _is_marked(folder, of_any_site=True)
    return False


def _is_ours(folder: int, name: str) -> bool:
    """Whether this is a file that this site put there."""
    its = look(name, folder, follows=False)
    return its is not None and stat.S_ISREG(its.st_mode) and its.st_uid == os.geteuid()


def _has_bytes(folder: int, name: str, content: int) -> bool:
    """Whether a file has the bytes of an open one."""
    with contextlib.suppress(OSError), opened(name, _OPEN_FILE | os.O_NOFOLLOW, folder=folder) as handle:
        place, size = 0, os.fstat(content).st_size
        is_same = os.fstat(handle).st_size == size
        while is_same and place < size:
            is_same = os.pread(handle, _BLOCK, place) == os.pread(content, _BLOCK, place)
            place += _BLOCK
        return is_same
    return False
