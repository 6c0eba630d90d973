"""uuspool-restore: puts the spool of a copy that uuspool-backup made in the place of the site's, and says what it did.

It is made whole in a new folder beside, and the program reads each row of it. In the turn of the spool that is there, it gets
a next number above all that were given, loses the jobs that are gone since the copy was made, as the log says, and gets
what is beside the spool that is there. A job that is gone because another one stood for it, which is lost with the spool that is
there, waits again. Then both folders are exchanged in one step. So whenever the command is stopped, the site has one of the
two spools, whole. If no folder can take the place of the spool's, as of a mount point, what is in it is exchanged name by name. Then a
stop may leave no spool, and the next run puts the new one there.

root or the spool's user runs it. For root the owner of the spool's folder opens what is in it, and runs the program there."""
import collections
import contextlib
import itertools
import os
import stat
from collections.abc import Callable, Collection, Iterable, Iterator, Mapping, Sequence
from types import MappingProxyType

from . import files, logged, options, restored, turn
from .copies import Copier, Target
from .errors import LATER, NOT_SET_UP, USAGE, Failure, Stopped
from .jobs import Job, Parcel
from .journal import Journal
from .pieces import ABOUT, About, Piece, folder_of, kept_in, name_of, whole_of
from .place import ASIDE, INNER, Place
from .processes import Ended, Program
from .session import Session, acting_as, user_name
from .settings import Settings
from .site import find_from_anywhere, owner_of
from .source import BESIDE, MOST_OF_A_TEXT, OURS, Source, is_kept
from .spool import answers_in
from .texts import is_number, one_line
from .values import NamedTuple

_USAGE = "usage: uuspool-restore [-n NUMBER] COPY"
_LAST = 4294967294  # number of a job
_NO_LIMIT = 1 << 40  # bytes of a spool that is made, which may be as long as the site's limit lets it be
_DISTANCE = 1_000_000  # from the greatest number that is known, if the spool that is there can't be read
_FARTHEST = 1_000_000_000
_LITTLE = 1_000  # from that, otherwise, because a crash may have taken the ends of the spool and of the log
_SETTINGS = "restoring.toml"  # with which the program works on what is made
_PRESENT, _ITS_COPY = "present", "copy"  # folders in which the program reads copies of both spools
_MOST = 1 << 28  # bytes that the program may print
_AT_A_TIME = 64  # jobs whose bytes are in memory
_ENDS = ("", "-wal", "-word", "-lock", "-reserve", "-journal", "-new", "-new-wal", ASIDE)  # of the names of the spool's files


class Gone(NamedTuple):
    """A job of the copy that is gone, by this line of the log, and the job that stood for it and is lost."""

    job: Job
    line: logged.Line
    lost: logged.Anew | None


class Came(NamedTuple):
    """A file that came in pieces: the number of the job with which it was delivered, or 0, and whose it is."""

    number: int
    user: str


class Known(NamedTuple):
    """What is known of a spool: the next number, or 0 if it can't be read, and its jobs."""

    next: int
    jobs: list[Job]


def run(session: Session, words: Sequence[str]) -> int:
    """The command."""
    given, names = options.read(words, "n:", _USAGE)
    least = given.get("n")
    if len(names) != 1 or not (least is None or is_number(least) and 0 < int(least) <= _LAST):
        raise Failure(USAGE, _USAGE)
    path = os.path.abspath(names[0])
    found = find_from_anywhere(session)
    owner = _owner_of(found)
    session.processes.catch_stops()
    with Place(found.folder, owner, os.path.basename(found.spool)) as place, Source(path, found, place.seen.st_uid) as source:
        restoration = Restoration(session, found, owner, place, source)
        restoration.make(int(least or 0))
    for fault in restoration.faults:
        session.say(fault)
    return 1 if restoration.faults else 0


def _owner_of(found: Settings) -> str:
    """The user of the site, who is this one, unless root runs this."""
    try:
        owner, number = owner_of(found), os.stat(found.folder).st_uid
    except FileNotFoundError:
        raise Failure(NOT_SET_UP, f"{found.folder}, the folder of the spool, is not there: make it, as backup.md says, and try again") from None
    if os.geteuid() == 0 and owner.isdecimal():
        raise Failure(NOT_SET_UP, f"{found.folder} belongs to user {owner}, who has no account")
    if os.geteuid() not in (0, number):
        raise Failure(LATER, f"{found.folder} belongs to {owner}: let root run this")
    return owner


class Restoration:
    """Puts a copy back."""

    def __init__(self, session: Session, found: Settings, owner: str, place: Place, source: Source) -> None:
        self._session, self._settings, self._owner, self._place, self._source = session, found, owner, place, source
        self._pause = session.processes.pause
        self.faults: list[str] = []  # what couldn't be read or brought over, and why
        self._other = Known(0, [])  # of the spool that is there, if it isn't the copy's
        self._is_same = False  # whether the spool that is there has the word of the copy's
        self._times: list[restored.Time] = []  # when the copy's spool was put back before
        self._again: set[str] = set()  # the folders below `pieces` of files that are to be handed on again
        self._finished: dict[str, About] = {}  # those of files that were handed on, and what is noted of each
        self._why = ""  # the program failed
        self._unread = ""  # why the spool that is there can't be read

    def make(self, least: int) -> None:
        """Puts it back, with a next number of so much at least, and prints what was done."""
        self._place.wait_for_nobody(self._pause)
        room = self._place.begin()
        made = self._begun(room, INNER)
        self._source.put_spool(made)
        copy = self._known(room, _ITS_COPY, self._source.put_spool)
        if not copy.next:
            raise Failure(LATER, f"the spool in {self._source.path} can't be read: {self._why}: make room on the disk, or take an earlier copy")
        with turn.Turn(self._settings.spool, self._session.setting("UUSPOOL_PATIENCE", 60), self._owner) as its_turn, contextlib.ExitStack() as stack:
            its_turn.wait_for_it(self._pause)
            present = self._present(room, its_turn, stack)
            self._times = self._times_before()
            said = self._said(copy.jobs)
            self.faults += (f"{it}, so jobs of which it says that they are done may wait again" for it in said.faults)
            number = _number(least, copy.next, present.next, said.greatest)
            gone = [Gone(job, said.gone[job.number], said.lost.get(job.number)) for job in copy.jobs if job.number in said.gone]
            anew = self._change(made, number, gone)
            self._fill(made, {job.number for job in copy.jobs} | said.others | self._read(self._handed()).gone.keys())
            time = restored.Time(copy.next, number, os.urandom(8).hex())
            made.put_text(restored.NAME, restored.text_of([*self._times, time]), self._place.seen)
            made.sync()
            self._session.processes.check()
            # (A stop that comes once it is put back ends nothing.)
            with contextlib.suppress(Stopped), self._session.processes.finishing():
                self._place.expect_nobody()
                path = self._put_in_place(made, gone, anew, time)
        known = {job.number for job in copy.jobs} | said.gone.keys() | {it.lost.number for it in gone if it.lost}
        try:
            if not said.has_mark:
                self._session.print("the log has no line of this copy, so jobs that were done since it was made wait again")
            self._tell(gone, anew, number, path)
            absent = *(it for it in present.jobs if it.number not in known), *self._other.jobs
            for line in _by_files(("not in the copy", "", job) for job in absent):
                self._session.print(line)
        except OSError as error:
            self.faults.append(f"standard output can't be written, and lacks what was done: {error.strerror}")

    def _put_in_place(self, made: Target, gone: Sequence[Gone], anew: Mapping[int, int], time: restored.Time) -> str:
        """Exchanges the folders. Where the one that was there is then. Before anybody can work with the spool that is put back, the log
        says so, and what was queued anew in it. That counts once it is put back, whatever stops this."""
        user, which = user_name(self._place.seen.st_uid), f"{self._source.mark or '-'} {self._source.word}"
        self._note("", user, "", logged.RESTORING, f"{which} {time.word} {time.end} from {self._source.path}", lasts=True)
        self._note_anew(gone, anew)
        path = self._exchange(made)
        self._note("", user, "", logged.RESTORED, f"{which} from {self._source.path}: the next job gets {time.end} or a later number", lasts=True)
        for job, line, lost in gone:
            if not lost:
                self._note(job.system, job.user, job.number, "done-before", f"{line.how}: {job.what}")
        return path

    def _note_anew(self, gone: Sequence[Gone], anew: Mapping[int, int]) -> None:
        left = len(anew)
        for job, _, lost in gone:
            if lost and job.number in anew:
                left -= 1
                self._note(_system_of(lost), job.user, anew[job.number], "done", " ".join(lost.line[1:]))
                self._note(_system_of(lost), job.user, anew[job.number], "moved", f"from {job.system}, where it was job {job.number}", lasts=not left)

    def _note(self, system: str, user: str, job: int | str, how: str, words: str, lasts: bool = False) -> None:
        with acting_as(self._owner):
            Journal(self._settings.log, self._settings.zone, self._session.say).note(system, user, job, how, words, lasts)

    def _said(self, jobs: Sequence[Job]) -> logged.Said:
        """What the log says of the jobs of the copy. A job that brought a piece of a file here isn't done, unless the file was
        delivered: the piece may be lost. (One that is there may come again.) If it was handed on, and that is lost, all of its pieces
        wait again."""
        parts: dict[str, list[Job]] = collections.defaultdict(list)
        marks: dict[int, str] = {}
        for job in jobs:
            if job.system == self._settings.name and (piece := Piece.of(job)):
                parts[name_of(job)].append(job)
                marks[job.number] = piece.name(job.user)
        said, there = self._read({job.number: job.user for job in jobs}, marks), self._files_there()
        self._again = self._handed_on_and_lost(there)
        waiting: set[int] = set()
        done: set[int] = set()
        for its in parts.values():
            numbers, folder = {job.number for job in its}, folder_of(its[0])
            handed_on = numbers & said.handed_on
            if handed_on & said.gone.keys() - said.lost.keys() if handed_on else numbers & said.delivered:
                done |= numbers
                self._finished |= {folder: self._about(its[0])} if handed_on else {}
            else:
                waiting |= {it for it in numbers - handed_on if it in said.gone and said.gone[it].how == "done"}
                self._again |= {folder} if handed_on and (folder not in there or there[folder].number) else set()
        self._again -= self._finished.keys()
        said = said.without(gone=waiting, lost=done)
        return said._replace(gone={number: logged.Line("", "done") for number in done} | said.gone)

    def _about(self, job: Job) -> About:
        """What is noted of a file that was delivered, of which a job brought a piece."""
        piece, name = Piece.of(job), f"{self._settings.name}!{job.number}!{job.day}.{job.hour}"
        assert piece
        return About(piece, job.user, name, name, whole_of(job).what)

    def _files_there(self) -> dict[str, Came]:
        """The files that came in pieces, as what is there says. (An unfinished one may have pieces that came after the copy.)"""
        folder, found = f"{self._place.path}/pieces", {}
        with acting_as(self._owner):
            for path in kept_in(folder):
                if about := files.read_record(f"{path}/{ABOUT}"):
                    number = str(about.get("came", "")).split("!")[1:2]
                    its = int(number[0]) if number and is_number(number[0]) else 0
                    found[path.removeprefix(f"{folder}/")] = Came(its, str(about.get("user", "")))
        return found

    def _handed_on_and_lost(self, there: Mapping[str, Came]) -> set[str]:
        """Those of these files that were handed on since, which is lost. What came after the copy may come again."""
        names = {its.number: name for name, its in there.items() if its.number}
        if not names:
            return set()
        users = {number: there[name].user for number, name in names.items()}
        said = self._read(users, {number: os.path.basename(name) for number, name in names.items()})
        return {names[number] for number in said.handed_on - (said.gone.keys() - said.lost.keys())}

    def _read(self, users: Mapping[int, str], marks: Mapping[int, str] = MappingProxyType({})) -> logged.Said:
        """What the log says of jobs of these users since the copy was made. Some of them brought pieces of files here, which have these marks."""
        times = [it.word for it in self._times]
        return logged.read(self._settings.log, self._owner, self._source.word, self._source.mark, users.keys(), times, marks, users)

    def _handed(self) -> dict[int, str]:
        """The jobs of which notes say that Taylor UUCP has them, or may have them, and whose they are."""
        folder = f"{self._place.path}/taylor"
        users = {number: user for its in self._being_handed().values() for number, user in its.items()}
        with acting_as(self._owner):
            for system in files.names_in(folder):
                for name in files.names_in(f"{folder}/{system}"):
                    if is_number(number := name.removesuffix(".json")):
                        users[int(number)] = _user_of(files.read_record(f"{folder}/{system}/{name}").get("job"))
        return users

    def _being_handed(self) -> dict[str, dict[int, str]]:
        """The notes of calls that were stopped while they handed jobs to Taylor UUCP, and the jobs of each, and whose they are."""
        folder, found = f"{self._place.path}/taylor", {}
        with acting_as(self._owner):
            paths = [path for system in files.names_in(folder) if os.path.exists(path := f"{folder}/{system}/begun.json")]
            for path in paths:
                record = files.read_record(path)
                numbers, jobs = record.get("numbers"), record.get("jobs")
                if isinstance(numbers, list):
                    its = itertools.zip_longest(numbers, jobs if isinstance(jobs, list) else ())
                    found[path] = {number: _user_of(job) for number, job in its if isinstance(number, int)}
        return found

    def _begun(self, room: Target, name: str) -> Target:
        """A new folder for a spool, with settings for it."""
        import json  # (takes long to load)

        target = room.folder(name, self._place.seen)
        text = f"name = {json.dumps(self._settings.name)}\nspool = {json.dumps(self._source.name, ensure_ascii=False)}\nlimit = {_NO_LIMIT}\n"
        target.put_text(_SETTINGS, text, self._place.seen)
        return target

    # ---- what is known

    def _present(self, room: Target, its_turn: turn.Turn, stack: contextlib.ExitStack) -> Known:
        """What is known of the spool that is there, if it is the copy's: a later or an earlier state of it. Nobody else has it open
        from now on."""
        self._is_same = self._present_text(f"{self._source.name}-word").strip() == self._source.word

        def put(target: Target) -> None:
            target.put(self._source.name, database)
            with contextlib.suppress(FileNotFoundError), files.closing(self._opened(f"{self._source.name}-wal")) as handle:
                target.put(f"{self._source.name}-wal", handle)

        try:
            database = stack.enter_context(its_turn.database(self._settings.spool, self._pause))
            known = self._known(room, _PRESENT, put)
        except OSError as error:
            known, self._why = Known(0, []), error.strerror or ""
        self._unread = "" if known.next else self._why or "uuspool failed"
        if self._is_same:
            return known
        self._other = known
        return Known(0, [])

    def _times_before(self) -> list[restored.Time]:
        """When spools were put back: in the past of the copy, and in that of the spool that is there, if it is the copy's.
        Another spool gave the first numbers, so neighbours may have heard that they don't come again."""
        texts = [self._source.text(restored.NAME), self._present_text(restored.NAME) if self._is_same else ""]
        others = [restored.Time(1, self._other.next)] if self._other.next > 1 else []
        return [*others, *(it for text in texts for it in restored.times_in(text))]

    def _present_text(self, name: str) -> str:
        """What a file in the folder that is there says, or nothing if it can't be read."""
        with contextlib.suppress(OSError), files.closing(self._opened(name)) as handle:
            return os.pread(handle, MOST_OF_A_TEXT, 0).decode(errors="replace")
        return ""

    def _opened(self, name: str) -> int:
        """A file in the folder that is there."""
        with acting_as(self._owner):
            return turn.opened(name, os.O_RDONLY, self._place.handle)

    def _known(self, room: Target, name: str, put: Callable[[Target], None]) -> Known:
        """What is known of a spool, of which a copy is made for that. A system for which nothing waits has the next number in its
        bundle."""
        target = self._begun(room, name)
        put(target)
        target.sync()
        system = f"number-{os.getpid()}"
        requests = (b"list", b""), (b"load", f"system {system}\n".encode()), (f"pack --no-jobs --spool=x {system}".encode(), b"")
        answers = self._batch(name, requests)
        room.remove(name)
        if [it.status for it in answers] != [0, 0, 0]:
            return Known(0, [])
        return Known(int(answers[2].output.split(b" ", 5)[4]), [Job.read(line) for line in answers[0].output.decode().splitlines()])

    # ---- what is made

    def _change(self, made: Target, number: int, gone: Sequence[Gone]) -> dict[int, int]:
        """The made spool gives numbers from this one on, and loses these jobs, but for those for which a lost one stood. The result
        has the new numbers of those that were queued anew. (From now on the folder is the user's, who may exchange what is in it. So root
        makes nothing there any more.)"""
        made.sync()
        made.owner = self._owner
        ended = self._run(INNER, ["renumber", str(number)])
        if ended.status:
            raise Failure(LATER, f"the next number of the copy can't be made {number}: {one_line(ended.errors + ended.output)}")
        self._remove([it.job for it in gone if not it.lost])
        moved = sorted((it for it in gone if it.lost and it.lost.line), key=lambda it: it.lost.number if it.lost else 0)
        anew: dict[int, int] = {}
        for at in range(0, len(moved), _AT_A_TIME):
            anew |= self._queue_anew(moved[at : at + _AT_A_TIME])
        for name in _SETTINGS, "log", f"{self._source.name}-lock", f"{self._source.name}-reserve":
            with contextlib.suppress(FileNotFoundError), acting_as(self._owner):
                os.unlink(name, dir_fd=made.handle)
        return anew

    def _remove(self, jobs: Sequence[Job]) -> None:
        answers = self._batch(INNER, [(f"--as={job.user} kill {job.number}".encode(), b"") for job in jobs])
        if [it.status for it in answers] != [0] * len(jobs):
            raise Failure(LATER, f"jobs that are done can't be removed from the copy: {self._why or one_line(answers[-1].output)}")

    def _queue_anew(self, moved: Sequence[Gone]) -> dict[int, int]:
        """Queues jobs anew by the lines that did that before. One that isn't queued waits as it is in the copy."""
        shown = self._batch(INNER, [(f"show {it.job.number}".encode(), b"") for it in moved])
        if [it.status for it in shown] != [0] * len(moved):
            raise Failure(LATER, f"jobs that had been queued anew can't be read from the copy: {self._why}")
        lines = [" ".join(it.lost.line).encode() if it.lost else b"" for it in moved]
        answers = self._batch(INNER, [(line, Parcel.read(its.output).data) for line, its in zip(lines, shown, strict=True)])
        if len(answers) != len(moved):
            raise Failure(LATER, f"jobs can't be queued anew in the copy: {self._why}")
        numbers: dict[int, int] = {}
        for it, answer in zip(moved, answers, strict=True):
            if answer.status:
                why = one_line(answer.errors + answer.output)
                self.faults.append(f"job {_shown(it.job)} had been queued anew, which fails now, so it waits as it was in the copy: {why}")
            else:
                numbers[it.job.number] = int(answer.output.split()[1])
        self._remove([it.job for it in moved if it.job.number in numbers])
        return numbers

    def _batch(self, name: str, requests: Sequence[tuple[bytes, bytes]]) -> list[Ended]:
        """The answers to requests, of which a spool that fails gives less."""
        if not requests:
            return []
        ended = self._run(name, ["batch"], b"".join(b"%d %s\n%s" % (len(given), words, given) for words, given in requests))
        answers = list(answers_in(ended.output))
        self._why = one_line(ended.errors or b"".join(it.errors for it in answers))
        return answers

    def _run(self, name: str, words: Sequence[str], given: bytes = b"") -> Ended:
        """Runs the program as the spool's user on a spool that is made."""
        line = [self._session.program, "-c", _SETTINGS, *words]
        program = self._session.acting(self._owner, Program(line, "", self._session.environment, most=_MOST))
        environment = {key: value for key, value in program.environment.items() if key != "UUSPOOL_DIR"}
        return self._session.processes.run(program._replace(folder=f"{self._place.room}/{name}", environment=environment), given)

    def _fill(self, made: Target, known: Collection[int]) -> None:
        """Puts beside the made spool what is beside the one that is there, and what only the copy has. (If that is another spool,
        what is noted of its jobs stays there.) These jobs are in the copy, or gone since. A file that is to be handed on again is
        as the copy has it, because the one that is there says that it was delivered. One that was handed on to the end, whenever a stop
        came, is noted so, because it would be handed on again, or refused after some weeks."""
        import json  # (takes long to load)

        # (If the folder stays, so does what the users have there.)
        names = {it for it in os.listdir(self._place.handle) if self._is_carried(it) and (it in OURS or not self._place.is_within)}
        again = [f"pieces/{it}" for it in sorted(self._again)]
        without = [f"{self._place.path}/pieces/{it}" for it in self._again | self._finished.keys()]
        lost = [path for path, its in self._being_handed().items() if not its.keys() <= set(known)]
        with Copier([self._place.seen.st_uid], self._owner, [*without, *lost]) as copier:
            for name in sorted(names):
                self._carry(name, made, copier, known)
            self._finish(copier)
        with Copier([self._place.seen.st_uid], without=[f"{self._source.path}/spool/pieces/{it}" for it in self._finished]) as copier:
            for name in [it for it in BESIDE if it not in names] + again * ("pieces" in names):
                self._source.take(name, made, copier)
            self._finish(copier)
        for name, about in self._finished.items():
            target = made
            for part in ("pieces", *name.split("/")):
                target = target.folder(part, self._place.seen)
            target.put_text(ABOUT, json.dumps(about.record()), self._place.seen)

    def _finish(self, copier: Copier) -> None:
        copier.finish()
        self.faults += (f"{it}, so it is not brought over" for it in copier.left_out)

    def _is_carried(self, name: str) -> bool:
        is_spools = name.removeprefix(self._source.name) in _ENDS or name == restored.NAME
        return not is_spools and (self._is_same or name not in BESIDE)

    def _carry(self, name: str, made: Target, copier: Copier, known: Collection[int]) -> None:
        path, seen = f"{self._place.path}/{name}", files.look(name, self._place.handle, follows=False)
        if seen is None:
            return
        if stat.S_ISDIR(seen.st_mode):
            copier.take(path, made.folder(name), _wanted(name, known))
        elif stat.S_ISLNK(seen.st_mode):
            with files.opened(name, os.O_PATH | os.O_NOFOLLOW, folder=self._place.handle) as link:
                # (One of root's, such as that of the log, counts as what root named. So none of the user's becomes one.)
                with acting_as("" if os.fstat(link).st_uid == 0 else self._owner):
                    os.symlink(os.readlink("", dir_fd=link), name, dir_fd=made.handle)

    def _files(self) -> list[str]:
        """The files beside the spool that are no folders and no links, such as the settings or the log, and the lock."""
        seen = {it: files.look(it, self._place.handle, follows=False) for it in os.listdir(self._place.handle)}
        names = [name for name, its in seen.items() if its and stat.S_ISREG(its.st_mode) and self._is_carried(name)]
        return [f"{self._source.name}-lock", *sorted(names)]

    def _exchange(self, made: Target) -> str:
        """Where what was there is then."""
        path = "" if self._place.is_within else self._exchange_folders(made)
        return path or self._exchange_names()

    def _exchange_folders(self, made: Target) -> str:
        """Where the folder that was there is then, or nothing if the file system can't do this. These files stay the same. So a line that
        waits with the lock, and has the path of the new spool, keeps its turn or fails, and no line of the log is lost. (No link is
        followed, and a name in the folder of the spool's user becomes another one there.)"""
        moved = self._files()
        for name in moved:
            os.link(name, name, src_dir_fd=self._place.handle, dst_dir_fd=made.handle, follow_symlinks=False)
        if path := self._place.exchange():
            try:
                self._place.put_aside(made, self._source.name)
                for name in moved:
                    os.unlink(name, dir_fd=self._place.handle)
            except OSError as error:
                self._fail_behind(path, error)
        return path

    def _exchange_names(self) -> str:
        """Where that which was there is then, if the folder stays the same."""
        path = self._place.exchange_names()
        try:
            path = self._place.keep_old()
        except OSError as error:
            self._fail_behind(path, error)
        return path

    def _fail_behind(self, path: str, error: OSError) -> None:
        self.faults.append(f"the copy is put back, but a step behind that failed in {path}, where the spool that was there is ({error.strerror}): run this again")

    # ---- what is told

    def _tell(self, gone: Sequence[Gone], anew: Mapping[int, int], number: int, path: str) -> None:
        """Says it on standard output."""
        if not self._is_same:
            self._session.print("the spool that was there has another word than the copy, or none")
        if self._unread:
            self._session.print(f"the spool that was there can't be read ({self._unread}), so nobody knows which of its jobs aren't in the copy")
        for line in _by_files(_fates(gone, anew)):
            self._session.print(line)
        self._session.print(f"the next job gets {number} or a later number")
        self._session.print(f"the spool that was there is in {path}")


def _user_of(job: object) -> str:
    """Whose a job is, as a note says it. (Nobody's, if that says nothing: then no piece counts for it.)"""
    return str(job or "").partition(" ")[0]


def _system_of(lost: logged.Anew) -> str:
    return lost.line[lost.line.index("--") + 1]


def _fates(gone: Sequence[Gone], anew: Mapping[int, int]) -> Iterator[tuple[str, str, Job]]:
    """What is said of each of these jobs: what may be the same for all pieces of a file, and the rest."""
    for job, line, lost in gone:
        if not lost:
            yield f"done before ({line.how}, ", f"{line.moment})", job
        elif job.number in anew:
            yield f"queued anew for {_system_of(lost)} ", f"as job {anew[job.number]}, since job {lost.number} is lost", job
        else:
            yield "waits again, ", f"since job {lost.number} is lost", job


def _by_files(fates: Iterable[tuple[str, str, Job]]) -> list[str]:
    """A line for each job, or for all pieces of a file of which the same is said. It is that of the first one."""
    lots: dict[tuple[str, str, str], list[tuple[str, Job]]] = collections.defaultdict(list)
    for what, rest, job in fates:
        lots[what, job.system, name_of(job)].append((f"{what}{rest}: job ", job))
    return [f"{lot[0][0]}{_shown(whole_of(lot[0][1]))}{_part_of(lot[0][1], len(lot))}" for lot in lots.values()]


def _part_of(job: Job, pieces: int) -> str:
    piece = Piece.of(job)
    return f" ({pieces} of {piece.total} pieces)" if piece else ""


def _shown(job: Job) -> str:
    return f"{job.number} for {job.system} of {job.user}: {job.what}"


def _wanted(folder: str, known: Collection[int]) -> Callable[[str], bool]:
    """Which files in a folder are brought over. Taylor UUCP goes on with a job that is lost here, and a note of it would take it
    back. One that was killed or moved has to be taken back, so its note stays."""

    def is_wanted(name: str) -> bool:
        number = name.removesuffix(".json")
        is_users = folder not in OURS
        return is_users or (is_kept(name) and (folder != "taylor" or not number.isdecimal() or int(number) in known))

    return is_wanted


def _number(least: int, copys: int, presents: int, greatest: int) -> int:
    """The next number: above that of the spool that is there, of the copy, and each in the log. If the first can't be read, many more
    may have been given."""
    known = max(copys, presents, greatest + 1)
    if 0 < least < known:
        raise Failure(USAGE, f"-n {least} is too small, because numbers up to {known - 1} may have been given: say {known} or more")
    if least > known + _FARTHEST:
        raise Failure(USAGE, f"-n {least} would use up the numbers, of which {known - 1} is the greatest known: say {known + _FARTHEST} or less")
    number = least or known + (_LITTLE if presents else _DISTANCE)
    if number > _LAST:
        raise Failure(LATER, f"no number above {known} is certainly new: say one by -n")
    return number
