"""What happens to a job that waits besides a call: it is queued anew, or refused for good. A stop between
two steps leaves the job, and the rest is done again.

A job that is refused for good is kept in one file below refused/: a line with the reason, and what `show` prints. A
file that came in pieces is kept in a folder, whose name ends with `.file`. While nobody was told, the name ends with
`.untold`, and while the job isn't removed yet, with `.waiting.untold`: whoever tells, calls or delivers removes it first. Who has many jobs refused gets one letter about them. Old ones are removed, and the oldest of a sender
whose jobs take too much room."""
import collections
import contextlib
import itertools
import os
from collections.abc import Iterable, Iterator, Sequence

from . import files, pieces
from .errors import LATER, SpoolError
from .jobs import Job, Parcel
from .letters import PAUSE, Letter, Mailroom, NotSent
from .pieces import FILE, UNTOLD, IsOld
from .site import Site
from .texts import printable
from .values import NamedTuple

WAITING = f".waiting{UNTOLD}"  # ends the name of what is kept while its job may wait in the spool
_ALONE = f".alone{WAITING}"  # likewise, if no other piece of its file is refused with it
_MOST_LETTERS = 20  # to one local user, or to one neighbour, at a time
_LOOKED = ".looked"  # when it was looked at how old things are
_SEEN = ".seen"  # what was seen then
_FAILED = ".failed"  # when a letter couldn't be sent
_BETWEEN_LOOKS = 3600  # seconds
_DAYS = 90
_MEGABYTES = 64
_MOST_OF_A_LINE = 1 << 16  # bytes


class NotRemoved(Exception):
    """A job was queued anew, and the old one can't be removed now."""


def requeue(site: Site, parcel: Parcel, system: str, words: Sequence[str] | None = None) -> str:
    """Queues a job anew for a system, once, under a new number, and removes the old one. The answer is
    `job` and the number, or nothing if its user removed the old one meanwhile: then the new one is removed, too. SpoolError if it wasn't
    queued."""
    job = parcel.job
    with site.alone():
        if site.spool.show(job.number) is None:
            return ""
        site.will_forget_keys()
        key = f"{site.own}!{job.number}!again"
        queued = site.spool.queue_again(job, key, system, job.words if words is None else words, parcel.data)
        try:
            if site.spool.kill(job):
                return queued
            site.spool.kill(job._replace(number=int(queued.split()[1])))
        except SpoolError as error:
            raise NotRemoved(str(error)) from None
    return ""


class Refuser:
    """Refuses jobs for good: a job is kept below refused/, and removed. `tell` writes to its user then."""

    def __init__(self, site: Site) -> None:
        self._site = site

    def refuse(self, parcel: Parcel, why: str, is_kept: bool = False) -> bool:
        """Refuses a job, and the other pieces of its file that wait with it, unless it is kept already. One that is gone meanwhile isn't
        refused. If one can't be refused now it waits, and this says so."""
        if is_kept:
            return self._remove(parcel.job, printable(why[:500]))
        with self._site.alone():
            try:
                parcels = self._waiting(parcel)
            except SpoolError as error:
                return self._waits(parcel.job.number, str(error))
            return self._refuse(parcels, why)

    def _waiting(self, parcel: Parcel) -> Iterable[Parcel | None]:
        """A job, and the other pieces of its file, if they wait. (Only for a piece all jobs are listed, which takes long if they are many.)"""
        if not pieces.Piece.of(parcel.job):
            return [parcel] if self._site.spool.show(parcel.job.number) else []
        waiting = self._site.spool.waiting(parcel.job.system)
        jobs = [it for it in pieces.together(parcel.job, waiting) if any(it.number == other.number for other in waiting)]
        return (parcel if it.number == parcel.job.number else self._site.spool.show(it.number) for it in jobs)

    def refuse_alone(self, parcel: Parcel, why: str) -> bool:
        """Refuses a job, and no other piece of its file."""
        with self._site.alone():
            return self._refuse([self._site.spool.show(parcel.job.number)], why, _ALONE)

    def _refuse(self, parcels: Iterable[Parcel | None], why: str, end: str = WAITING) -> bool:
        """Each is kept before the first one is removed, so a stop leaves no piece of a file of which nobody knows that it is
        refused."""
        reason = printable(why[:500])
        kept = [(it.job, self._kept(it, reason, end)) for it in parcels if it]
        return all([path != "" and self._remove(job, reason, path, end) for job, path in kept])

    def _kept(self, parcel: Parcel, reason: str, end: str) -> str:
        """The path of what is kept of a job, or nothing if that can't be."""
        try:
            return self._keep(parcel, reason, str(parcel.job.number), end)
        except OSError as error:
            self._waits(parcel.job.number, f"it cannot be kept below {self._site.folder}/refused: {error.strerror}")
        return ""

    def _remove(self, job: Job, reason: str, path: str = "", end: str = "") -> bool:
        """Removes a job that is kept. Now its user may be told."""
        try:
            was_there = self._site.spool.kill(job)
        except SpoolError as error:
            return self._waits(job.number, str(error))
        if path and not was_there:  # (its user removed it meanwhile)
            files.remove(f"{path}{end}")
            return True
        self._site.log.note(job.system, job.user, job.number, "refused-for-good", reason)
        if path:
            with contextlib.suppress(FileNotFoundError):  # (unless another process did so meanwhile)
                os.rename(f"{path}{end}", f"{path}{UNTOLD}")
        return True

    def keep(self, parcel: Parcel, why: str, name: str) -> None:
        """Keeps what is no job of the spool, and so has the number 0, so that its user is told. No other one has such a name."""
        self._keep(parcel, printable(why[:500]), f"{parcel.job.number}.{name}", UNTOLD)

    def _waits(self, number: int, why: str) -> bool:
        self._site.session.say(f"job {number} cannot be refused now, and waits: {why}")
        return False

    def _keep(self, parcel: Parcel, reason: str, name: str, end: str) -> str:
        """The same job is one file, and no other file is overwritten: a spool that was made anew gives its
        numbers again. The path of the file, without the end of its name."""
        first = f"{self._site.folder}/refused/{name}"
        for copy in itertools.count(1):
            path = f"{first}.{copy}" if copy > 1 else first
            there = [it for end_of_one in ("", UNTOLD, WAITING, _ALONE) if os.path.lexists(it := f"{path}{end_of_one}")]
            most = len(parcel.text) + _MOST_OF_A_LINE
            if any((files.read_bytes(it, most) or b"").partition(b"\n")[2] == parcel.text for it in there):
                return path
            if not there:
                files.replace(f"{path}{end}", f"{reason}\n".encode() + parcel.text)
                return path
        raise AssertionError("there is no last number")


def finish(site: Site, number: int | None = None) -> bool:
    """Removes the jobs that are kept, and that a stop left in the spool, or the one of this number. Otherwise they would go,
    though their users are told that they are refused. Whether none of them waits any more."""
    found = [it for it in files.names_in(f"{site.folder}/refused") if it.endswith(WAITING) and number in (None, _number_in(it))]
    if not found:
        return True
    with site.alone():
        return all([_finish(site, f"{site.folder}/refused/{name}") for name in found])


def _number_in(name: str) -> int | None:
    number = name.partition(".")[0]
    return int(number) if number.isdecimal() else None


def _finish(site: Site, path: str) -> bool:
    reason, _, text = (files.read_bytes(path) or b"").partition(b"\n")
    try:
        parcel = Parcel.read(text)
    except ValueError:
        return True  # (Nobody is told of it.)
    there, refuser = site.spool.show(parcel.job.number), Refuser(site)
    if there and _is_same(there, parcel):
        why = reason.decode(errors="replace")
        if path.endswith(_ALONE):
            refuser.refuse_alone(parcel, why)
        else:
            refuser.refuse(parcel, why)
        return not os.path.lexists(path)
    with contextlib.suppress(FileNotFoundError):
        os.rename(path, path.removesuffix(_ALONE).removesuffix(WAITING) + UNTOLD)
    return True


def _is_same(one: Parcel, other: Parcel) -> bool:
    """Whether both are one job. (Its grade, and its moment as the site's clock shows it, may have changed.)"""
    first, second = (it.job._replace(grade="", day="", hour="", line="") for it in (one, other))
    return first == second and one.data == other.data


class Kept(NamedTuple):
    """What is kept, and why: a job, or the file that came in pieces."""

    path: str
    job: Job  # as that of the whole file, if it is a piece
    name: str  # the same for all pieces of a file
    data: bytes  # its beginning, but not that of a file in pieces
    reason: str
    number: int | None  # of a job, under which a letter about it is queued once

    @staticmethod
    def read(path: str) -> "Kept | None":
        """What a file or a folder has, if it is kept there."""
        if os.path.isdir(path):
            return _kept_file(path)
        with contextlib.suppress(OSError, ValueError), open(path, "rb", opener=files.open_at_once) as file:
            reason, line = (file.readline(_MOST_OF_A_LINE).decode(errors="replace").removesuffix("\n") for _ in range(2))
            job = Job.read(line)
            is_piece = pieces.Piece.of(job) is not None
            name, data = (pieces.name_of(job), b"") if is_piece else (path, file.read(_MOST_OF_A_LINE))
            return Kept(path, pieces.whole_of(job), name, data, reason, job.number or None)
        return None

    @property
    def who(self) -> str:
        """Whose letters count together: a local user, or a neighbour."""
        return f"{self.job.sender}!" if self.job.sender else self.job.user

    def key(self, own: str) -> str:
        """Under what a letter about it is queued once."""
        return f"{own}!{self.number}!refused" if self.number is not None else ""

    def note_told(self) -> None:
        """Its user knows it."""
        with contextlib.suppress(FileNotFoundError):
            os.rename(self.path, self.path.removesuffix(UNTOLD))


def _kept_file(path: str) -> Kept | None:
    """The file in a folder. It has the number of the job that brought its first piece, if that is known."""
    about = pieces.About.read(path)
    if about is None:
        return None
    own, number, moment = (about.job or "-!0!-.-").split("!")
    (kind, *words), (day, _, hour) = about.piece.words, moment.partition(".")
    job = Job(int(number), own, about.user, "-", day, hour, about.piece.size, kind, tuple(words), "")
    return Kept(path, job, os.path.basename(path), b"", about.why, int(number) or None)


def tell(site: Site, at_once: bool = True) -> int:
    """Writes to the users of jobs that were refused and that nobody was told about. The status is that of the
    command: if a letter can't be sent now, that is tried again, some minutes later unless somebody asks for it."""
    failed = f"{site.folder}/refused/{_FAILED}"
    with site.lock("refused/.lock") as lock:
        if not lock.take():
            return 0
        status = 0 if finish(site) else LATER
        if not at_once and files.is_fresh(failed, PAUSE) and has_untold(site):
            site.session.say(f"letters about refused jobs wait, because the mailer took none: it is asked again after {PAUSE // 60} minutes")
            return LATER
        groups = collections.defaultdict(list)
        for kept in _untold(site):
            groups[kept.who].append(kept)
        if all([_tell(site, group) for group in groups.values()]):
            files.remove(failed)
            return status
        files.touch_if_possible(failed)
    return LATER


def has_untold(site: Site) -> bool:
    """Whether somebody has to be told yet, under a key that isn't forgotten before."""
    return any(name.endswith(UNTOLD) for name in files.names_in(f"{site.folder}/refused"))


def _untold(site: Site) -> Iterator[Kept]:
    for name in files.names_in(f"{site.folder}/refused"):
        path = f"{site.folder}/refused/{name}"
        if name.endswith(UNTOLD) and not name.endswith(WAITING) and (kept := Kept.read(path)):
            yield kept


def _tell(site: Site, group: Sequence[Kept]) -> bool:
    """A letter about each job, or one about all if they are many. A file in pieces has the number of the first. Nobody gets
    a letter about a letter."""
    mailroom, own = Mailroom(site), site.own
    group = sorted(group, key=lambda it: -(it.number or 0))
    jobs = list({it.name: it for it in group if not it.job.is_letter}.values())[::-1]
    try:
        if len(jobs) > _MOST_LETTERS:
            mailroom.send_list([(it.job, it.reason) for it in jobs], jobs[0].key(own))
        else:
            for it in jobs:
                mailroom.send(Letter("refused", f"is refused at {own}", f"{it.reason}."), it.job, it.data, it.key(own))
                for other in group:
                    if other.name == it.name:
                        other.note_told()
    except NotSent as error:
        site.session.say(f"the user of job {jobs[0].job.number}, which is refused, cannot be told: {error}")
        return False
    for it in group:
        it.note_told()
    return True


def look(site: Site) -> IsOld | None:
    """What says which things are old, if it is an hour since that was looked at."""
    looked = f"{site.folder}/refused/{_LOOKED}"
    if files.is_fresh(looked, _BETWEEN_LOOKS):
        return None
    files.touch_if_possible(looked)
    kept = [path for path, _, _ in newest_first(f"{site.folder}/refused")]
    from .ages import Ages  # (which most rounds don't need)

    return Ages.look(f"{site.folder}/refused/{_SEEN}", [*kept, *pieces.kept_in(f"{site.folder}/pieces")]).is_old


def forget_old(site: Site, is_old: IsOld) -> None:
    """Removes what was refused long ago, and whose user was told. (The age begins when the file gets its name.)"""
    days = site.session.setting("UUSPOOL_REFUSED_DAYS", _DAYS)
    for path, _, _ in newest_first(f"{site.folder}/refused"):
        if not path.endswith(UNTOLD) and is_old(path, days):
            _remove(path)


def forget_excess(site: Site) -> bool:
    """Removes the oldest of a neighbour or a local user that fills the disk, or of all addresses, but not the newest. Nothing is removed before
    its user was told: whether nothing waits for that."""
    most = site.session.setting("UUSPOOL_REFUSED_MEGABYTES", _MEGABYTES) << 20
    folder = f"{site.folder}/refused"
    if _size(newest_first(folder)) <= most:  # (Reading whose they are takes longer.)
        return True
    tell(site, at_once=False)
    sums: collections.Counter[str] = collections.Counter()
    all_told = True
    for path, _, size in newest_first(folder):
        kept = Kept.read(path)
        who = kept.job.party if kept else ""
        is_newest = not sums[who]
        sums[who] += size
        if sums[who] <= most or is_newest:
            continue
        if path.endswith(UNTOLD):
            all_told = False
        else:
            _remove(path)
    return all_told


def _size(found: Sequence[tuple[str, float, int]]) -> int:
    return sum(size for _, _, size in found)


def _remove(path: str) -> None:
    with contextlib.suppress(OSError):
        files.remove_folder(path) if os.path.isdir(path) else os.remove(path)


def newest_first(folder: str) -> list[tuple[str, float, int]]:
    """What is kept, when it was written last, and its bytes on the disk."""
    found = []
    for name in files.names_in(folder):
        if name[:1].isdecimal() and not name.endswith(".warned") or name.removesuffix(UNTOLD).endswith(FILE):
            path = f"{folder}/{name}"
            with contextlib.suppress(OSError):
                seen = [os.stat(it, follow_symlinks=False) for it in (path, *(f"{path}/{it}" for it in files.names_in(path)))]
                found.append((path, seen[0].st_mtime, sum(it.st_blocks for it in seen) * 512))
    return sorted(found, key=lambda it: it[1], reverse=True)


def warn(site: Site, parcel: Parcel, days: int) -> bool:
    """Tells a job's user once that it still waits, and for how long. (A job has one key, which is for the
    letter of its refusal, so a stop may double a warning.)"""
    job, mark = pieces.whole_of(parcel.job), f"{site.folder}/refused/{pieces.name_of(parcel.job)}.warned"
    if job.is_letter or os.path.exists(mark):
        return True
    why = f"{job.system} was not reached yet. The job goes on waiting, until it is {days} days old."
    try:
        data = b"" if pieces.Piece.of(parcel.job) else parcel.data
        Mailroom(site).send(Letter("still waits", f"still waits at {site.own}", why), job, data)
    except NotSent as error:
        site.session.say(f"the user of job {job.number} cannot be told: {error}")
        return False
    files.touch(mark)
    return True


def forget_warnings(site: Site, waiting: set[str]) -> None:
    """Warnings of jobs and files other than these, by their names, are forgotten."""
    for name in files.names_in(f"{site.folder}/refused"):
        if name.endswith(".warned") and name.removesuffix(".warned") not in waiting:
            with contextlib.suppress(OSError):
                os.remove(f"{site.folder}/refused/{name}")
