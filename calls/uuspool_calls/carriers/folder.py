"""folder SYSTEM FOLDER [PROGRAM]: a stick, a mount or a folder that a program syncs. It writes HERE-SYSTEM.bundle
there, whole, instead of the last one, and prints SYSTEM-HERE.bundle if it is there. What doesn't fit into one bundle
is in HERE-SYSTEM.bundle.2 and so on: a system may be called duke.2.

All of them stay there: a bundle that is read twice changes nothing, and what the last one brought is said in the
next. PROGRAM may seal them: `PROGRAM seal SYSTEM` and `PROGRAM open SYSTEM` are filters. What `open` prints is used
only if it ends with status 0. A small file may have been packed from very many bytes, so either is ended if it prints more
than a bundle has, or takes longer than a call.

Others may write the folder. A link that they put there could lead to any file of this site, so none is followed."""
import contextlib
import os
import stat
from collections.abc import Sequence

from .. import bundle
from ..errors import LATER, NOT_SET_UP, Failure
from ..files import look, opened, write_all
from ..processes import Ended, Program
from ..session import Session

_MOST_SEALED = 1 << 24  # bytes of a sealed bundle
_READ = os.O_RDONLY | os.O_NOFOLLOW | os.O_NONBLOCK | os.O_CLOEXEC
_MAKE = os.O_WRONLY | os.O_CREAT | os.O_EXCL | os.O_NOFOLLOW | os.O_CLOEXEC


def run(session: Session, words: Sequence[str]) -> int:
    """The carrier."""
    if len(words) < 2:
        raise Failure(NOT_SET_UP, "folder: no folder in the line of the call")
    session.processes.catch_stops()
    text = session.processes.read_input(0, bundle.MOST, session.call_limit) or b""
    try:
        handle = os.open(words[1], os.O_RDONLY | os.O_DIRECTORY | os.O_CLOEXEC)
    except OSError:
        raise Failure(LATER, f"{words[1]} is not there: is it mounted?") from None
    return Exchange(session, words[0], Folder(session, handle, os.path.realpath(words[1]), words[0], words[2:3])).make(text)


class Folder:
    """The folder, opened, and what seals the bundles in it."""

    def __init__(self, session: Session, handle: int, path: str, system: str, sealer: Sequence[str]) -> None:
        self._session, self._handle, self._path = session, handle, path
        self._system, self._sealer = system, sealer

    def is_left(self, name: str) -> bool:
        """Whether the neighbour left a file of this name."""
        seen = look(name, self._handle, follows=False)
        return seen is not None and stat.S_ISREG(seen.st_mode)

    def opened(self, name: str) -> bytes | None:
        """The bundle in a file, or None if it can't be opened, which is said."""
        by = self._sealer[0] if self._sealer else "this site"
        with contextlib.suppress(OSError):
            handle = os.open(name, _READ, dir_fd=self._handle)
            with open(handle, "rb") as file:
                text = file.read(_MOST_SEALED)
            if not self._sealer:
                return text
            ended = self._run("open", text, bundle.MOST)
            if ended.wrote_too_much:
                by = f"{by} printed more than {bundle.MOST} bytes, so this site"
            elif ended.status == 0:
                return ended.output
        self._session.say(f"{self._path}/{name}: {by} cannot open it")
        return None

    def _run(self, task: str, given: bytes, most: int) -> Ended:
        limit = self._session.call_limit
        program = Program([*self._sealer, task, self._system], "", self._session.environment, limit, most, ends_beyond=True)
        ended = self._session.processes.run(program, given)
        write_all(2, ended.errors)
        return ended

    def put(self, name: str, text: bytes) -> None:
        """Makes a new file of these bytes, and gives it this name. What a killed call left is removed."""
        try:
            self._put(name, self._sealed(text))
        except OSError as error:
            raise Failure(LATER, f"{name} cannot be written in {self._path}: {error.strerror}") from None

    def _sealed(self, text: bytes) -> bytes:
        if not self._sealer:
            return text
        ended = self._run("seal", text, _MOST_SEALED)
        if ended.wrote_too_much:
            raise OSError(0, f"{self._sealer[0]} printed more than {_MOST_SEALED} bytes")
        if ended.status:
            raise OSError(0, f"{self._sealer[0]} ended with status {ended.status}")
        return ended.output

    def _put(self, name: str, text: bytes) -> None:
        head = f".{name}."
        for old in os.listdir(self._handle):
            if old.startswith(head) and len(old) == len(head) + 8:
                self.remove(old)
        new = f"{head}{os.urandom(4).hex()}"
        try:
            with opened(new, _MAKE, folder=self._handle) as handle:
                write_all(handle, text)
                os.fsync(handle)
            os.replace(new, name, src_dir_fd=self._handle, dst_dir_fd=self._handle)
        except BaseException:
            self.remove(new)
            raise
        os.fsync(self._handle)

    def remove(self, name: str) -> bool:
        """Removes a file. False if it isn't there."""
        try:
            os.remove(name, dir_fd=self._handle)
        except OSError:
            return False
        return True


class Exchange:
    """Our bundles there, and the neighbour's back."""

    def __init__(self, session: Session, system: str, folder: Folder) -> None:
        self._session, self._system, self._folder = session, system, folder
        self._here = session.environment.get("UUSPOOL_HERE", "")

    def make(self, text: bytes) -> int:
        """The status of the carrier. The neighbour's bundle counts, even if not all of ours can be written."""
        others = self._take_others()
        self._folder.put(self._ours(1), text)
        failure: Failure | None = None
        try:
            self._put_others(text, others)
        except Failure as error:
            failure = error
        first = self._theirs(1)
        if self._folder.is_left(first):
            back = self._folder.opened(first)
            if back is None:
                return LATER
            write_all(1, back)
        if failure:
            raise failure
        return 0

    def _ours(self, number: int) -> str:
        return f"{self._here}-{self._system}.bundle{_numbered(number)}"

    def _theirs(self, number: int) -> str:
        return f"{self._system}-{self._here}.bundle{_numbered(number)}"

    def _take_others(self) -> int:
        """Takes what the neighbour has besides its first bundle, and counts it."""
        number = 2
        while self._folder.is_left(self._theirs(number)):
            text = self._folder.opened(self._theirs(number))
            if text is not None:
                os.write(2, self._run("uuspool-answer", self._system, given=text).errors)
            number += 1
        return number - 2

    def _run(self, command: str, *words: str, given: bytes = b"") -> Ended:
        program = Program([f"{self._session.commands}/{command}", *words], "", self._session.environment)
        return self._session.processes.run(program, given)

    def _pack(self, *options: str) -> bytes:
        grade, most = self._session.environment.get("UUSPOOL_GRADE", ""), self._session.setting("UUSPOOL_MOST", 0)
        words = ["pack", *bundle.bound(most), *options, *([f"-g{grade}"] if grade else [])]
        ended = self._run("uuspool", *words, "--", self._system)
        if ended.status:
            os.write(2, ended.errors)
            raise Failure(LATER, f"there is no more than one bundle for {self._system}")
        return ended.output

    def _put_others(self, text: bytes, others: int) -> None:
        """What doesn't fit into one bundle, and what came in the neighbour's other bundles."""
        count = 1
        while (last := bundle.last_job(text)) is not None:
            text = self._pack("--after", str(last))
            if bundle.has_jobs(text):
                count += 1
                self._folder.put(self._ours(count), text)
        if count == 1 and others:
            count += 1
            self._folder.put(self._ours(count), self._pack("--no-jobs"))
        while self._folder.remove(self._ours(count + 1)):
            count += 1


def _numbered(number: int) -> str:
    return f".{number}" if number > 1 else ""
