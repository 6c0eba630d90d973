"""uuspool-deliver: delivers the jobs that wait for this site itself, each on its own, or tries those with
these numbers now. What neighbours brought by Taylor UUCP is queued first.

One round goes on at a time, and begins nothing more after some minutes. The senders take turns in it, so who sends
many jobs delays no other. The next round waits for no command that takes longer than usual, and has fewer places
meanwhile. A job that fails is tried again after 10 minutes, then after twice as long, at most 4 hours. After 5 days,
or if it never can be delivered, it is refused. The status is 75 if a job can't be refused now.

A command that ended well isn't run again, also if a stop (HUP, INT, TERM) goes to all processes: its end is noted first.
One that a stop ended runs again, and so does one whose end couldn't be noted before a kill, with the same $UUSPOOL_JOB, by
which it may know the job."""
import collections
import contextlib
import os
import time
from collections.abc import Sequence
from functools import partial

from . import cli, clock, executions, files, outgoing, pieces, records, refusals, works
from .delivery import Asked, Delivery, Outcome, StillWorks
from .errors import LATER, USAGE, Delay, Failure, Refusal, SpoolError, spool_needed
from .jobs import REQUEST, Delivered, Job, Parcel
from .letters import Mailroom, NotSent
from .processes import NONE_BEGINS, Child, Children, named
from .refusals import Refuser
from .session import Session
from .site import Site, enter
from .texts import is_number

_USAGE = "usage: uuspool-deliver [NUMBER..]"
_KILLED = 128  # the least status of a process that a signal ended
_NEW = 3600  # seconds in which a record's job may have just come
LOCK, _WORKS = ".lock", ".works"  # of a job, behind its number
_MOST_OF_A_LAST = 1 << 21  # bytes of a piece with its line
_MARGIN = 15  # seconds until a command that is ended has ended
_TAKING = 30  # seconds for which a round waits for what neighbours brought
_ROUND = 300  # seconds after which a round begins no more deliveries
_AT_A_LOOK = 64  # deliveries, after which it is looked again how much was refused
_MOST_FETCHED = 64  # MiB that wait for a neighbour, above which it fetches nothing more
_MOST_JOBS = 5000  # that wait for it
_PATIENCE = 30  # seconds for another file that it fetches


def run(session: Session, words: Sequence[str]) -> int:
    """The command."""
    if not all(map(is_number, words)):
        raise Failure(USAGE, _USAGE)
    site = enter(session)
    deliverer = Deliverer(site)
    session.processes.catch_stops()
    if words:
        return max(deliverer.run(session, words), refusals.tell(site))
    with Children(session.processes, session.at_once) as taking:
        _take_executions(site, taking)
        with site.lock("deliver/round.lock") as lock:
            status = _round(site, deliverer, lock) if lock.take() else 0
        taking.wait()
    return status


def _take_executions(site: Site, children: Children) -> None:
    """Queues what neighbours brought by Taylor UUCP. Each has a process of its own, so who brings much delays no other, and
    what takes long goes on beside the round."""
    ends = clock.running() + _TAKING
    for name in executions.neighbours(site):
        if not children.has_place(ends - clock.running()):
            break
        if not children.start(partial(_taking, site, name)):
            site.session.say(f"{NONE_BEGINS}: what {name} brought waits for the next round")
            break
    children.wait(ends - clock.running())


def _taking(site: Site, neighbour: str) -> Child:
    def work() -> int:
        named(site.session.command)
        site.session.processes.begin_as_child()
        return cli.run(site.session, partial(_take, site), [neighbour])

    return Child(work)


def _take(site: Site, session: Session, words: Sequence[str]) -> int:
    executions.take_of(site, words[0])
    return 0


def _round(site: Site, deliverer: "Deliverer", lock: files.Lock) -> int:
    """Delivers what is due, some jobs at a time, each in a process of its own."""
    with spool_needed(f"the spool cannot be asked what waits for {site.own}"):
        waiting = site.spool.waiting(site.own)
    _clean(site, waiting)
    ended = _deliver_all(site, deliverer, due(site, waiting, clock.now()), lock)
    for number, status in ended:
        if status > _KILLED:
            deliverer.note_killed(number, status - _KILLED)
    told = refusals.tell(site, at_once=False)
    return LATER if any(status for _, status in ended) else told


def _refuse_unfinished(site: Site, is_old: pieces.IsOld) -> None:
    """Files that never became whole are refused."""
    for file in pieces.unfinished(f"{site.folder}/pieces", is_old):
        about, piece = file.about, file.about.piece
        why = f"{file.count()} of {piece.total} pieces came, and no other one for {pieces.DAYS} days"
        try:
            file.set_aside(f"{site.folder}/refused", why)
        except OSError as error:
            site.session.say(f"{file.folder} cannot be kept below {site.folder}/refused: {error.strerror}")
            continue
        site.log.note(site.own, about.user, "", "refused-for-good", f"{' '.join(piece.words)}: {why}")


def _deliver_all(site: Site, deliverer: "Deliverer", numbers: Sequence[int], lock: files.Lock) -> list[tuple[int, int]]:
    """Delivers these jobs while the round goes on. Each has the status with which its delivery ended. The next round
    waits for no command that takes longer than usual."""
    ends = clock.running() + _ROUND
    usual = site.session.command_limit + _MARGIN
    with Children(site.session.processes, max(1, site.session.at_once - _still_working(site.folder))) as children:
        for begun, number in enumerate(numbers):
            if clock.running() >= ends or not children.has_place(usual):
                site.session.say(f"{len(numbers) - begun} jobs wait for the next round")
                break
            if begun and begun % _AT_A_LOOK == 0 and not _forget_excess(site):
                site.session.say(f"{len(numbers) - begun} jobs wait for the next round, because more was refused than is kept, and nobody can be told")
                break
            if not children.start(partial(_delivery, site.session, deliverer, number), number):
                site.session.say(f"{NONE_BEGINS}: {len(numbers) - begun} jobs wait for the next round")
                break
        children.wait(usual)
        _forget_excess(site)
        lock.give_back()
        children.wait()
    return children.ended


def _forget_excess(site: Site) -> bool:
    """Whether more can be refused. (If nobody knows it, no command that works is ended for that.)"""
    try:
        return refusals.forget_excess(site)
    except Failure as why:
        site.session.say(str(why))
        return False


def _still_working(folder: str) -> int:
    """How many commands of earlier rounds still work."""
    of_jobs = [f"{folder}/deliver/{name}" for name in files.names_in(f"{folder}/deliver") if name.endswith(_WORKS)]
    return sum(map(works.is_so, (*of_jobs, *map(pieces.working_in, pieces.kept_in(f"{folder}/pieces")))))


def _delivery(session: Session, deliverer: "Deliverer", number: int) -> Child:
    def work() -> int:
        named(session.command)
        session.processes.begin_as_child()
        return cli.run(session, deliverer.run, [str(number)])

    return Child(work)


def due(site: Site, waiting: Sequence[Job], now: int) -> list[int]:
    """The jobs to try now. Those that failed before come last, because they may take long."""
    new, again, word = [], [], site.word()
    for job in waiting:
        tries = records.Tries.read(f"{site.folder}/deliver", word, job, now)
        if not tries.failed:
            new.append(job)
        elif not tries.is_later(now):
            again.append(job)
    return [job.number for job in (*by_turns(new), *by_turns(again))]


def by_turns(jobs: Sequence[Job]) -> list[Job]:
    """The jobs in an order in which each neighbour and each local user has one before any has its second, and so on."""
    counts: collections.Counter[str] = collections.Counter()
    turns = []
    for job in jobs:
        turns.append((counts[job.party], job))
        counts[job.party] += 1
    return [job for _, job in sorted(turns, key=lambda turn: turn[0])]


def _clean(site: Site, waiting: Sequence[Job]) -> None:
    """Removes records of jobs that wait no longer, but not new ones. Forgets the keys of letters and answers
    about jobs before the first that waits."""
    numbers, folder = {job.number for job in waiting}, f"{site.folder}/deliver"
    before = time.time() - _NEW
    for name in files.names_in(folder):
        number = name.partition(".")[0]
        if number.isdecimal() and int(number) not in numbers:
            with contextlib.suppress(OSError):
                if os.stat(f"{folder}/{name}").st_mtime < before:
                    _forget(folder, number)
    if is_old := refusals.look(site):
        _refuse_unfinished(site, is_old)
        refusals.forget_old(site, is_old)
    if os.path.exists(f"{folder}/keys") and not refusals.has_untold(site):
        with contextlib.suppress(SpoolError):
            if jobs := site.spool.waiting():
                site.spool.ask("forget", "--", site.own, str(min(job.number for job in jobs)))
                files.remove(f"{folder}/keys")


def _forget(folder: str, number: str) -> None:
    """Removes what is kept of a job, unless a process delivers it: the clock may have jumped since that began."""
    with files.Lock(f"{folder}/{number}{LOCK}") as lock:
        if lock.take() and lock.is_current():
            for end in "", records.LAST, _WORKS, LOCK:
                files.forget(f"{folder}/{number}{end}")


class Deliverer:
    """Delivers the jobs of a site that has a spool."""

    def __init__(self, site: Site) -> None:
        self._site, self._own = site, site.own
        self._folder = f"{site.folder}/deliver"
        folders, environment = (site.folder, f"{site.folder}/refused"), {**site.environment, "UUSPOOL_HERE": self._own}
        asked = Asked(self._hand_on, self._is_system, self._find, site.word())
        self._delivery = Delivery(site.session, self._own, folders, environment, asked)

    def run(self, session: Session, words: Sequence[str]) -> int:
        """Tries the jobs with these numbers."""
        return max(self.deliver(int(number)) for number in words)

    def deliver(self, number: int) -> int:
        """Tries a job, unless it is gone, or another process delivers it. One that hangs delays no
        round."""
        with self._site.lock(f"deliver/{number}{LOCK}") as lock, self._site.spool.keeping(lock):
            if not (lock.take() and lock.is_current()):
                return 0
            if not refusals.finish(self._site, number):
                return LATER
            parcel = self._site.spool.show(number)
            if parcel is None:
                records.forget(self._folder, number)
                return 0
            if parcel.job.system != self._own:
                raise Failure(USAGE, f"job {number} waits for {parcel.job.system}, not for this site")
            return self._try(parcel)

    def _try(self, parcel: Parcel) -> int:
        now = clock.now()
        tries = records.Tries.read(self._folder, self._site.word(), parcel.job, now)
        if came := self._came(tries):
            return self._finish(parcel.job, Outcome(came, is_onward=tries.is_onward), tries, now)
        try:
            with files.memory_file(parcel.data) as content:
                outcome = self._hand_over(self._delivered(tries.of(parcel.job), content), parcel.job)
        except Refusal as refusal:
            return self._refuse(parcel, str(refusal), now)
        except Delay as delay:
            return self._fail(parcel, str(delay), now)
        return self._finish(parcel.job, outcome, tries, now)

    def _delivered(self, job: Job, content: int) -> Delivered:
        name = f"{self._own}!{job.number}!{job.day}.{job.hour}"
        return Delivered(job.kind, job.words, content, job.sender, job.user, name, job.grade, f"{self._folder}/{job.number}{_WORKS}")

    def note_killed(self, number: int, signal: int) -> None:
        """A delivery that was killed, perhaps since memory ran out, has failed for now."""
        with self._site.lock(f"deliver/{number}{LOCK}") as lock, self._site.spool.keeping(lock):
            parcel = self._site.spool.show(number) if lock.take() and lock.is_current() else None
            if parcel:
                self._fail(parcel, f"its delivery at {self._own} was killed by signal {signal}", clock.now())

    def _hand_over(self, delivered: Delivered, job: Job) -> Outcome:
        """Delivers it."""
        if job.kind == "request" or (job.kind == "exec" and job.words[0] == REQUEST):
            self._send_file(delivered, job.words[job.kind == "exec" :])
            return Outcome(job.what, is_onward=True)
        return self._delivery.deliver(delivered)

    def _send_file(self, job: Delivered, words: Sequence[str]) -> None:
        """A file that the sender asked for goes back as a job of who asked, or in pieces."""
        if not job.sender or len(words) < 2:
            raise Refusal(f"a request for {self._own} itself, or without two names, asks for nothing")
        with self._delivery.public_of(job.sender).opened(words[0]) as content, self._site.lock(f"deliver/{job.sender}.fetches{LOCK}") as lock:
            # (Otherwise many find the same room.)
            if not lock.wait(_PATIENCE, self._site.session.processes.pause):
                raise Delay(f"another file is being queued for {job.sender}, so it gets {words[0]} later")
            self._expect_room(job.sender, words[0], os.fstat(content).st_size)
            self._queue(job.sender, job._replace(kind="send", words=tuple(words), content=content), "request")

    def _expect_room(self, sender: str, path: str, size: int) -> None:
        """A request is short, and what it fetches is long. So more of it waits until some of it went. (A file of any size may
        go if nothing waits.)"""
        most = self._site.session.setting("UUSPOOL_FETCHED_MEGABYTES", _MOST_FETCHED)
        try:
            there = self._site.spool.queued(sender)
        except SpoolError as error:
            raise Delay(f"{path} cannot be sent from {self._own} now: {error}") from None
        if there.jobs and (there.bytes + size > most << 20 or there.jobs >= _MOST_JOBS):
            raise Delay(f"{there.jobs} jobs of {there.bytes} bytes wait for {sender}, so it gets {path} once some of them went")

    def _is_system(self, name: str) -> bool:
        try:
            return bool(self._site.spool.systems(name))
        except SpoolError as error:
            raise Delay(f"it cannot be asked at {self._own} whether {name} is a system: {error}") from None

    def _find(self, number: int) -> Job | None:
        parcel = self._site.spool.show(number)
        return parcel.job if parcel and parcel.job.system == self._own else None

    def _hand_on(self, system: str, job: Delivered) -> None:
        self._queue(system, job, "onward")

    def _queue(self, system: str, job: Delivered, why: str) -> None:
        """Queues for a neighbour what a job brought or asked for, once."""
        number = int(job.name.split("!")[1])
        key = f"{self._own}!{number}!{why}"
        what = outgoing.Parcelled(system, job.user, job.grade, key, job.mark or outgoing.mark_of(job.name), (job.kind, *job.words))
        try:
            outgoing.queue(self._site, what, job.content, self._notes(number, what.mark))
        except SpoolError as error:
            # (Before a stop it was queued, and the file has changed since.)
            if error.differs:
                return
            if error.is_final:
                raise Refusal(f"{job.words[0]} cannot be sent from {self._own}: {error}") from None
            raise Delay(f"{job.words[0]} cannot be sent from {self._own} now: {error}") from None

    def _notes(self, number: int, mark: str) -> outgoing.Notes:
        """What is noted of the pieces in which a job is queued for a neighbour. They may have the moment of their job in their mark, and in
        their bytes. So it is noted, because after a stop the same pieces have to be queued, and none if all of them have gone. If the
        spool was put back since, it doesn't know all that a note says."""
        path = f"{self._folder}/{number}"

        def note(all_but_one: bool = False) -> None:
            before = self._tries(number)
            tries = before._replace(all_but_one=all_but_one, mark=before.mark or mark, restored=self._restored())
            with self._site.writing("deliver"):
                tries.write(self._folder, number)

        def end(last: outgoing.Last) -> None:
            with self._site.writing("deliver"):
                files.replace(f"{path}{records.LAST}", " ".join(last.words).encode() + b"\n" + last.data)
            note(all_but_one=True)

        def has_ended() -> bool:
            tries = self._tries(number)
            return tries.all_but_one and tries.restored == self._restored()

        def last() -> outgoing.Last | None:
            text = files.read_bytes(f"{path}{records.LAST}", _MOST_OF_A_LAST) if has_ended() else None
            line, _, data = (text or b"").partition(b"\n")
            return outgoing.Last(tuple(line.decode().split(" ")), data) if text else None

        return outgoing.Notes(note, lambda: os.path.exists(path), end, has_ended, last, lambda: self._tries(number).mark)

    def _restored(self) -> str:
        """What differs once the spool is put back."""
        from . import restored  # (which few jobs need)

        return restored.state(self._site.folder)

    def _came(self, tries: records.Tries) -> str:
        """What a record says that was delivered, or nothing. If that was queued for another system, a spool that was put back since may not
        have it, and otherwise knows its key."""
        is_lost = tries.came and tries.is_onward and tries.restored != self._restored()
        return "" if is_lost else tries.came

    def _tries(self, number: int) -> records.Tries:
        """The record of a job that is being delivered."""
        parcel = self._site.spool.show(number)
        if parcel is None:
            raise Delay(f"job {number} is gone")
        return records.Tries.read(self._folder, self._site.word(), parcel.job, clock.now())

    def give_up(self, parcel: Parcel, why: str) -> int:
        """Refuses a job, and if it is a piece, its file as far as it came. If that can't be now it waits, and the jobs
        after it are still tried. StillWorks if its command works, because that may end well."""
        try:
            with files.memory_file(parcel.data) as content:
                is_kept = self._delivery.set_aside(self._delivered(parcel.job, content), why)
        except StillWorks:
            raise
        except (OSError, Delay) as error:
            self._site.session.say(f"job {parcel.job.number} cannot be refused now, and waits: {error}")
            return LATER
        with self._site.session.processes.finishing():
            if not Refuser(self._site).refuse(parcel, why, is_kept):
                return LATER
            records.forget(self._folder, parcel.job.number)
        return 0

    def has_come(self, parcel: Parcel) -> bool:
        """Whether a job, or the file of which it is a piece, was delivered, and the spool couldn't note that yet."""
        tries = records.Tries.read(self._folder, self._site.word(), parcel.job, clock.now())
        return self._came(tries) != "" or self._delivery.has_come(self._delivered(parcel.job, -1))

    def _refuse(self, parcel: Parcel, why: str, now: int) -> int:
        """Refuses a job, or tries it later if its command still works."""
        try:
            return self.give_up(parcel, why)
        except StillWorks as delay:
            tries = records.Tries.read(self._folder, self._site.word(), parcel.job, now)
            return self._try_later(parcel.job, tries.after_failure(str(delay), now))

    def _fail(self, parcel: Parcel, why: str, now: int) -> int:
        tries = records.Tries.read(self._folder, self._site.word(), parcel.job, now)  # (with what its delivery noted)
        if tries.is_old(now) and not tries.came:
            return self._refuse(parcel, f"it could not be delivered for {records.DAYS} days: {why}", now)
        return self._try_later(parcel.job, tries.after_failure(why, now))

    def _try_later(self, job: Job, tries: records.Tries) -> int:
        with self._site.writing("deliver"):
            tries.write(self._folder, job.number)
        self._site.log.note(self._own, job.user, job.number, "waits", tries.why)
        return 0

    def _finish(self, job: Job, outcome: Outcome, tries: records.Tries, now: int) -> int:
        try:
            self._tell(job, outcome)
        except NotSent as error:
            if not tries.is_old(now):
                return self._try_later(job, tries.after_failure(f"it is delivered, and {outcome.wishes.notify or job.user} cannot be told: {error}", now))
        with self._site.session.processes.finishing():
            self._note_done(job, outcome, tries)
        return 0

    def _note_done(self, job: Job, outcome: Outcome, tries: records.Tries) -> None:
        """The spool notes that a job is delivered. If it can't, that is noted beside it before it is asked again, because this
        may be killed meanwhile."""
        try:
            self._site.spool.done(self._own, job.number, again=False)
        except SpoolError:
            with contextlib.suppress(Failure):
                self._note_came(job, outcome, tries)
            self._ask_again(job, outcome, tries)
        self._site.log.note(self._own, job.user, job.number, outcome.how, outcome.what)
        records.forget(self._folder, job.number)
        files.remove(f"{self._folder}/{job.number}{_WORKS}")
        if outcome.is_last:
            with contextlib.suppress(Delay):  # (what stays goes after 30 days)
                self._delivery.forget(self._delivered(job, -1))

    def _ask_again(self, job: Job, outcome: Outcome, tries: records.Tries) -> None:
        try:
            self._site.spool.done(self._own, job.number)
        except SpoolError as error:
            self._note_came(job, outcome, tries)
            raise Failure(LATER, f"job {job.number} is delivered, and that cannot be noted: {error}") from None

    def _note_came(self, job: Job, outcome: Outcome, tries: records.Tries) -> None:
        """The command of a job doesn't run again. (A file in pieces has a note of its own.)"""
        if outcome.how == "delivered" and not outcome.is_last:
            with self._site.writing("deliver"):
                tries._replace(came=outcome.what, is_onward=outcome.is_onward, restored=self._restored()).write(self._folder, job.number)

    def _tell(self, job: Job, outcome: Outcome) -> None:
        """The letters that the sender of a file asked for. (The second may come twice after a stop.)"""
        mailroom, own, to = Mailroom(self._site), self._own, outcome.wishes.notify
        if outcome.wishes.mail and not job.is_letter:
            mailroom.send_word(job.user, f"came: {outcome.what}", f"Your file came to {own}: {outcome.what}.", f"{own}!{job.number}!came")
        if to:
            place = self._delivery.public_of(job.sender).place
            sentence = f"A file of {job.user} came: {outcome.what}. It is below {place}."
            mailroom.send_word(to, f"a file from {job.user}", sentence)
