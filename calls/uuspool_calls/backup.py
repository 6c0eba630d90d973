"""uuspool-backup: copies the site while it works, to a new folder below DIR, and prints its path.

The copy has spool/, the spool's files and what is kept beside them, as they are in one turn; etc/, which is
/etc/uuspool; the settings; and what is kept of keys elsewhere. It is made as NAME.new, written to the disk, checked,
and only then renamed, so a copy without that ending is whole. With -k only the newest copies stay, unless the spool of
the new one has a fault. What is left out beside the spool, where its user may put anything, keeps no older copy.

root or the spool's user runs it. Who runs it alone can enter the copy, because it has jobs and keys. What root copies
keeps its owners."""
import contextlib
import fcntl
import os
import re
import stat
import time
from collections.abc import Iterator, Sequence

from . import clock, files, logged, options, restored, settings, turn
from .copies import Copier, Target
from .errors import LATER, NOT_SET_UP, USAGE, Failure
from .journal import Journal
from .processes import Program
from .session import Session, acting_as, numbers_of, user_name
from .site import find_from_anywhere, has_bytes, owner_of
from .source import BESIDE, MARK, MOST_OF_A_TEXT, is_kept
from .texts import is_number, one_line, typed

_USAGE = "usage: uuspool-backup [-k COPIES] DIR"
_NEW = ".new"
_COPY = re.compile(r"([A-Za-z0-9._-]+)\.([0-9]{8}T[0-9]{6}Z)(?:\.([0-9]+))?\Z")  # of which site, when, and its number in that second
_FOLDER = os.O_RDONLY | os.O_DIRECTORY | os.O_CLOEXEC
_OTHERS_WRITE = 0o022
_CHECK = "check.toml"  # the settings with which a copy is checked
_HOME = "/var/lib/uuspool"


def run(session: Session, words: Sequence[str]) -> int:
    """The command."""
    given, names = options.read(words, "k:", _USAGE)
    kept = given.get("k")
    if len(names) != 1 or not (kept is None or is_number(kept) and int(kept)):
        raise Failure(USAGE, _USAGE)
    place = os.path.abspath(names[0])
    found = find_from_anywhere(session)
    if not has_bytes(found.spool):
        raise Failure(NOT_SET_UP, f"there is no spool {found.spool}")
    session.processes.catch_stops()
    with Place(place) as copies:
        backup = Backup(session, found, copies)
        path = backup.make()
        stay = copies.remove_old(os.path.basename(path), int(kept), backup.number) if kept and not backup.faults else []
    session.print(path)
    faults = [*(f"{path}: {it}" for it in (*backup.left_out, *backup.faults)), *(f"{place}/{it} cannot be removed" for it in stay)]
    for fault in faults:
        session.say(fault)
    return 1 if faults else 0


class Place:
    """The folder of the copies. Nobody else may write it."""

    def __init__(self, path: str) -> None:
        self.path = path
        with contextlib.suppress(FileExistsError):
            os.mkdir(path, 0o700)
        self.handle = os.open(path, _FOLDER)
        seen = os.fstat(self.handle)
        if seen.st_uid not in (0, os.geteuid()) or seen.st_mode & _OTHERS_WRITE:
            os.close(self.handle)
            raise Failure(LATER, f"others may write {path}, or it belongs to another user: chmod go-w {path}, or name another folder")

    def __enter__(self) -> "Place":
        return self

    def __exit__(self, *error: object) -> None:
        os.close(self.handle)

    @contextlib.contextmanager
    def begun(self, name: str) -> Iterator[tuple[str, Target]]:
        """A new copy. Its name is free, and its folder is locked, so that nobody takes it for one of a killed backup."""
        for number in range(1, 1000):
            chosen = f"{name}.{number}" if number > 1 else name
            if os.path.lexists(f"{self.path}/{chosen}"):
                continue
            try:
                target = Target(f"{chosen}{_NEW}", self.handle)
            except FileExistsError:
                continue
            break
        else:
            raise Failure(LATER, f"{self.path} has too many copies of one second")
        fcntl.flock(target.handle, fcntl.LOCK_EX)
        try:
            yield chosen, target
        except BaseException:
            self._remove(f"{chosen}{_NEW}")
            raise
        finally:
            target.close()

    def keep(self, name: str) -> None:
        """A copy that is whole gets its name."""
        os.rename(f"{name}{_NEW}", name, src_dir_fd=self.handle, dst_dir_fd=self.handle)
        files.sync(self.handle)

    def remove_dead(self) -> None:
        """Removes what killed backups left."""
        for name in os.listdir(self.handle):
            if name.endswith(_NEW) and _COPY.match(name.removesuffix(_NEW)) and self._is_dead(name):
                self._remove(name)

    def _is_dead(self, name: str) -> bool:
        with contextlib.suppress(OSError), files.opened(name, _FOLDER | os.O_NOFOLLOW, folder=self.handle) as handle:
            fcntl.flock(handle, fcntl.LOCK_EX | fcntl.LOCK_NB)
            return True
        return False

    def remove_old(self, new: str, kept: int, owner: int) -> list[str]:
        """Removes the oldest copies of a site whose spool is this user's, so that so many stay with the new one. Those that
        can't be removed. (That user may give the site another one's name. A clock that was ahead made copies of a later day,
        which count as the oldest.)"""
        own, made, _ = _parts_of(new)
        found = [it for it in os.listdir(self.handle) if it != new and _COPY.match(it) and _parts_of(it)[0] == own and self._is_copy(it, owner)]
        found.sort(key=lambda it: (_parts_of(it)[1] <= made, *_parts_of(it)[1:]), reverse=True)
        for name in found[kept - 1 :]:
            self._remove(name)
        return [name for name in found[kept - 1 :] if self._is_copy(name, owner)]

    def _is_copy(self, name: str, owner: int) -> bool:
        """Whether a folder, and no link, has a copy of a spool of this user."""
        seen = [files.look(it, self.handle, follows=False) for it in (name, f"{name}/spool")]
        return all(it is not None and stat.S_ISDIR(it.st_mode) for it in seen) and seen[1] is not None and seen[1].st_uid == owner

    def _remove(self, name: str) -> None:
        import shutil  # (takes long to load)

        shutil.rmtree(name, ignore_errors=True, dir_fd=self.handle)


def _parts_of(name: str) -> tuple[str, str, int]:
    """Of which site a copy is, when it was made, and its number in that second."""
    match = _COPY.match(name)
    return (match[1], match[2], int(match[3] or 1)) if match else ("", "", 0)


class Backup:
    """A backup of a site."""

    def __init__(self, session: Session, found: settings.Settings, place: Place) -> None:
        self._session, self._settings, self._place = session, found, place
        self._pause = session.processes.pause
        self._owner = owner_of(found)
        if self._owner.isdecimal() and os.geteuid() == 0:
            raise Failure(NOT_SET_UP, f"{found.folder} belongs to user {self._owner}, who has no account")
        self.number = numbers_of(self._owner)[0] if os.geteuid() == 0 else os.geteuid()  # of the user whose files the copy has
        self.faults: list[str] = []  # of the spool in the copy
        self.left_out: list[str] = []  # what else isn't in it, and why

    def make(self) -> str:
        """Makes a copy, and returns its path."""
        self._place.remove_dead()
        name = f"{self._settings.name}.{time.strftime('%Y%m%dT%H%M%SZ', time.gmtime(clock.now()))}"
        with self._place.begun(name) as (chosen, target):
            seen = self._look()
            spool, mark = target.folder("spool", seen), os.urandom(8).hex()
            with Copier([self.number], self._owner) as copier:
                self._take_spool(spool, copier, f"{mark} {self._word()} {self._place.path}/{chosen}")
                self._session.processes.check()
                self._finish(copier)
            self._expect_word(spool)
            self._take_others(target)
            self._session.processes.check()
            self._check(spool)
            spool.put_text(MARK, f"{mark} {self._sizes(spool)}\n", seen)
            target.sync()
            self._session.processes.check()
            self._place.keep(chosen)
        return f"{self._place.path}/{chosen}"

    def _look(self) -> os.stat_result:
        """The folder of the spool, like which its copy becomes. (The user of settings may have put another folder there since it was asked whose
        it is.)"""
        seen = os.stat(self._settings.folder)
        if os.geteuid() == 0 and seen.st_uid != self.number:
            raise Failure(LATER, f"{self._settings.folder} was {self._owner}'s, and is now {user_name(seen.st_uid)}'s: try again")
        return seen

    def _word(self) -> str:
        """The word of the spool, or `-`."""
        with contextlib.suppress(OSError), acting_as(self._owner), files.closing(turn.opened(f"{self._settings.spool}-word", os.O_RDONLY)) as handle:
            return os.pread(handle, MOST_OF_A_TEXT, 0).decode(errors="replace").strip() or "-"
        return "-"

    def _take_spool(self, target: Target, copier: Copier, line: str) -> None:
        """Within one turn, copies the spool's files, and opens those beside it, so that they are of the same moment. The log gets
        this line then. What it says behind that came later."""
        found, name = self._settings, os.path.basename(self._settings.spool)
        with turn.Turn(found.spool, self._session.setting("UUSPOOL_PATIENCE", 60), self._owner) as its_turn:
            its_turn.wait_for_it(self._pause)
            self._expect_no_journal()
            self._note(line)
            with its_turn.database(found.spool, self._pause) as spool:
                target.put(name, spool)
                self._put(f"{found.spool}-wal", target, f"{name}-wal")
            copier.take_file(f"{found.spool}-word", target, f"{name}-word")
            copier.take_file(f"{found.folder}/{restored.NAME}", target, restored.NAME)
            for folder in BESIDE:
                if os.path.isdir(f"{found.folder}/{folder}"):
                    copier.take(f"{found.folder}/{folder}", target.folder(folder), is_kept)

    def _note(self, line: str) -> None:
        with acting_as(self._owner):
            log = Journal(self._settings.log, self._settings.zone, self._session.say)
            if not log.note("", user_name(os.geteuid()), "", logged.COPIED, line, lasts=True):
                self.left_out.append(f"{self._settings.log} lacks the line of this copy, so all jobs of it wait again once it is put back")

    def _sizes(self, target: Target) -> str:
        """The bytes of the copied files of the spool."""
        name = os.path.basename(self._settings.spool)
        return " ".join(str(os.stat(f"{name}{end}", dir_fd=target.handle).st_size) for end in ("", "-wal"))

    def _expect_word(self, target: Target) -> None:
        word = f"{self._settings.spool}-word"
        if files.look(os.path.basename(word), target.handle, follows=False) is None:
            self.faults.append(f"{word} is missing or can't be copied, so the copy has no word: see man uuspool-trouble")

    def _expect_no_journal(self) -> None:
        journal = f"{self._settings.spool}-journal"
        try:
            with acting_as(self._owner):
                handle = turn.opened(journal, os.O_RDONLY)
        except FileNotFoundError:
            return
        except OSError as error:
            raise Failure(LATER, f"{typed(journal)}, a file of sqlite3, can't be read: {error.strerror}: have {self._owner} move it away") from None
        with files.closing(handle):
            if (os.pread(handle, 1, 0) or b"\0") != b"\0":
                raise Failure(LATER, f"{journal} was left by sqlite3: open the spool once with sqlite3")

    def _put(self, path: str, target: Target, name: str) -> None:
        with acting_as(self._owner):
            handle = turn.opened(path, os.O_RDONLY)
        with files.closing(handle):
            target.put(name, handle)

    def _take_others(self, target: Target) -> None:
        """The settings and keys. They are changed by hand, so they are copied as they are now. (Where the first two are, the
        spool's user may say.)"""
        etc, found = os.path.realpath(self._session.etc), self._settings
        with Copier(owner=self._owner) as copier:
            copier.take_file(os.path.realpath(found.path), target, "settings.toml")
            if found.seals and not os.path.realpath(found.seals).startswith(f"{etc}/"):
                copier.take_files(found.seals, target.folder("seals"))
            self._finish(copier)
        with Copier() as copier:
            copier.take(etc, target.folder("etc"))
            home = self._session.environment.get("UUSPOOL_HOME") or _HOME
            copier.take_file(f"{home}/.ssh/authorized_keys", target, "authorized_keys")
            self._finish(copier)

    def _finish(self, copier: Copier) -> None:
        copier.finish()
        self.left_out += copier.left_out

    def _check(self, target: Target) -> None:
        """Has the program read each row of the copy. A wrong one is in the spool, too, and no reason to have no copy. (The
        spool's user may have named the file so that TOML would read another path in it. Whoever may write a folder on the way may
        have put another one in the place of this, so no path counts.)"""
        import json  # (takes long to load)

        name = os.path.basename(self._settings.spool)
        text = f"name = {json.dumps(self._settings.name)}\nspool = {json.dumps(name, ensure_ascii=False)}\n"
        target.put_text(_CHECK, text, os.fstat(target.handle))
        environment = {key: value for key, value in self._session.environment.items() if key != "UUSPOOL_DIR"}
        line = [self._session.program, "-c", _CHECK, "status"]
        ended = self._session.processes.run(Program(line, "", environment, first=lambda: os.fchdir(target.handle), keeps=(target.handle,)), joined=True)
        for made in _CHECK, f"{name}-lock", f"{name}-reserve", "log":
            with contextlib.suppress(FileNotFoundError):
                os.unlink(made, dir_fd=target.handle)
        if ended.status:
            self.faults.append(f"the spool of the copy cannot be opened: {one_line(ended.output)}")
