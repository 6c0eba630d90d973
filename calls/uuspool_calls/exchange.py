"""What both ends of a call do with the other's bundle. What few calls need is imported late, since a start takes long.

A line of the program that would do nothing isn't run, and two of which the log would say nothing are one batch, since
each program takes time."""
from collections.abc import Callable, Sequence
from contextlib import suppress

from . import bundle, files
from .errors import LATER, Failure, SpoolError
from .site import Site
from .spool import Line, Queued, Refused, Settled, Unpacked
from .texts import one_line, plain

_MOST_DOUBLINGS = 10
_MOST_NUMBERS = 2048  # that jobs get anew in one call
_NEVER_TAKEN = ("NoBundle", "OtherSender", "OtherSite", "NotSealed", "WrongKey")  # what the program calls such a text
_MOST_DIGITS = 20  # of a number of jobs
_WAITING = ".waiting.untold"  # ends the name of what is kept of a job that is refused and not removed yet
_MOST_WAITING = 5000  # jobs of a neighbour that wait here, above which no more are taken


class NotTaken(Exception):
    """A text isn't a bundle for this site, or the spool fails."""


class NoBundle(NotTaken):
    """A text never can be taken."""


class Taken:
    """What came of a bundle."""

    def __init__(self, settled: Settled, unpacked: Unpacked, reply: bytes = b"", later: str = "") -> None:
        self.settled, self.unpacked = settled, unpacked
        self.later = later  # why its jobs aren't taken now
        self.reply = reply  # to a bundle without jobs, if it was made at once
        self.requeued = self.removed = 0
        self.faults: list[str] = []  # at the neighbour, the last of which counts
        self.own_fault = ""  # at this site

    @property
    def fault(self) -> str:
        """What has to be corrected, here or at the neighbour, or nothing."""
        return self.own_fault or next(iter(self.faults[-1:]), "")

    @property
    def moves_jobs(self) -> bool:
        """Whether the neighbour has to hear what is here, or refused here, now."""
        return self.unpacked.jobs + self.unpacked.unwanted > 0

    @property
    def makes_room(self) -> bool:
        """Whether more of our jobs may go now."""
        return len(self.settled.done) + self.requeued + self.removed > 0


def finish_begun(site: Site, neighbour: str) -> bool:
    """Finishes the moves of jobs from and to a neighbour, and what was begun to be refused. Whether some were left."""
    has_moves = any(map(str.isdecimal, files.names_in(f"{site.folder}/moves")))
    has_refused = any(name.endswith(_WAITING) for name in files.names_in(f"{site.folder}/refused"))
    if has_moves:
        from . import moves

        moves.finish_all(site, neighbour)
    if has_refused:
        from . import refusals

        if not refusals.finish(site):
            raise Failure(LATER, f"nothing goes to {neighbour} while a job that is refused cannot be removed from the spool")
    return has_moves or has_refused


def expect_size(neighbour: str, text: bytes) -> None:
    """NoBundle if more came than a bundle can have."""
    if len(text) > bundle.MOST:
        raise NoBundle(f"more than {bundle.MOST} bytes came from {neighbour}, so it is no bundle")


class Neighbour:
    """A neighbour, of which bundles are taken, and for which ours are made, each of so many bytes at most, if that isn't 0.
    Mail from it is handed on to some systems. What it refuses gets new numbers until the call is over."""

    def __init__(self, site: Site, name: str, onward: Sequence[str], most: int = 0, is_over: Callable[[], bool] = lambda: False) -> None:
        self._site, self._name, self._onward, self._is_over = site, name, list(onward), is_over
        self._bound = bundle.bound(most)
        self._waits = f"{site.folder}/calls/{name}.waits"
        self._bundles_with_stale, self._numbers_left = 0, _MOST_NUMBERS
        self.renumbered: set[int] = set()  # the numbers that jobs got

    # ---- making bundles

    def pack(self, options: Sequence[str]) -> bytes:
        """The first bundle of a call, which has everything that there is to say."""
        return self._made(["pack", *self._bound, *options, "--", self._name])

    def answer(self, text: bytes, options: Sequence[str] = ()) -> bytes:
        """The bundle that answers the neighbour's. It says what became of each job in that."""
        return self._made(["answer", *self._bound, *options, "--", self._name, *self._onward], text)

    def reply(self, text: bytes, is_taken: bool = True) -> bytes:
        """The bundle that answers a call."""
        return self._made(*self._reply(text, is_taken))

    def reply_to(self, text: bytes, taken: Taken) -> bytes:
        """The bundle that answers a call, of which the caller's was taken. Before this, what the caller says that it has is
        settled. Otherwise it would get it again."""
        if finish_begun(self._site, self._name):
            taken.reply = b""
        settled, jobs = len(taken.settled.done), taken.unpacked.jobs
        self._site.log.note(self._name, "", "", "answered", f"{jobs} jobs came, {settled} of ours are there")
        return taken.reply or self.reply(text, is_taken=not taken.later)

    def _reply(self, text: bytes, is_taken: bool = True) -> tuple[list[str], bytes]:
        """The line for it, and its input. If the caller's has no jobs, ours says all that is here: a call before may have
        broken, so that the caller doesn't know. If its jobs weren't taken, nothing is said of them."""
        if not (is_taken and bundle.has_jobs(text)) and (grade := bundle.grade_wanted(text)):
            return ["pack", *self._bound, f"-g{grade}", "--", self._name], b""
        return ["answer", *self._bound, "--", self._name, *self._onward], text

    def _made(self, words: Sequence[str], given: bytes = b"") -> bytes:
        if bundle.has_jobs(given) and (said := self._batch((words, given), (["queues"], b""))):
            self._note_waiting(said[1])
            return said[0]
        ended = self._site.spool.run(words, given)
        if ended.status == 0:
            return ended.output
        why = plain(one_line(ended.errors).encode()) or f"uuspool ended with status {ended.status}"
        if not ended.errors and ended.output.startswith(b"no system"):
            why = f"no system {self._name} is defined at {self._site.own}: {self._site.etc}/sys and uuspool-sys define one"
        raise Failure(LATER, f"there is no bundle for {self._name}: {why}")

    def _batch(self, *lines: Line) -> list[bytes] | None:
        """The answers to lines that one process does, if it can. (A batch has no sealed bundles.)"""
        return self._site.spool.batch(self._site.word(), *lines) if not self._site.settings.seals else None

    # ---- taking bundles

    def front(self, text: bytes) -> bytes:
        """What is taken of a text that came: not more jobs than may wait here. The neighbour sends again what isn't answered."""
        expect_size(self._name, text)
        return bundle.front(text, max(1, self.most_waiting))

    def take(self, text: bytes, replies: bool = False) -> Taken:
        """Removes our jobs that a bundle says are there, and then queues its jobs here, unless too many wait. On a full disk
        the first makes room for the second. Then it handles what the neighbour refuses."""
        try:
            later = self._looks_for_room() if bundle.has_line(text, b"job") else ""
            says = later or bundle.has_line(text, b"has", b"no")  # (or its sender is looked at, before it is answered)
            settled = self._settle(text) if says else Settled((), ())
            unpacked = (Unpacked(0, ()), b"") if later else self._unpack(text, replies and not settled.refused)
            if "NoSystem" in unpacked[0].refusals and self._leaves_out_undefined():
                unpacked = self._unpack(text, False)
            taken = Taken(settled, *unpacked, later)
        except SpoolError as error:
            kind = NoBundle if any(f"bundle: {name}" in str(error) for name in _NEVER_TAKEN) else NotTaken
            raise kind(self._explained(str(error), text)) from None
        if "NoSystem" in taken.unpacked.refusals:
            others = f", and {' '.join(self._onward)}" if self._onward else ""
            taken.own_fault = f"the sys file here has to define {self._site.own}, this site's own name{others}"
        self._heed_refusals(taken)
        return taken

    def _settle(self, text: bytes) -> Settled:
        """Removes our jobs that the neighbour has. What moves to another one goes before that, and no move begins meanwhile: if the neighbour
        has some pieces of a file, the others must not be elsewhere without these."""
        with self._site.alone():
            finish_begun(self._site, self._name)
            return self._site.spool.settle(self._name, text)

    def _leaves_out_undefined(self) -> bool:
        """Whether some of the systems to which mail is handed on aren't defined. Mail for these is a job of this site from now on: its delivery
        refuses it, with a letter."""
        defined = [it for it in self._onward if self._site.spool.systems(it)]
        is_less = len(defined) < len(self._onward)
        self._onward = defined
        return is_less

    def _unpack(self, text: bytes, replies: bool) -> tuple[Unpacked, bytes]:
        """Queues the jobs of a bundle. If it has none, our reply may be made at once."""
        if replies and not bundle.has_line(text, b"job") and (said := self._batch((["unpack", "--", self._name, *self._onward], text), self._reply(text))):
            return Unpacked.read(said[0]), said[1]
        return self._site.spool.unpack(self._name, self._onward, text), b""

    def _looks_for_room(self) -> str:
        """Why a neighbour whose jobs wait here in great number brings no more, until some are delivered or gone. (If few
        jobs waited in all after its last bundle, its own needn't be counted.)"""
        known = files.read_bytes(self._waits, _MOST_DIGITS)
        if known is not None and not (known.isdigit() and int(known) < self.most_waiting) and self.room() <= 0:
            return f"{self.most_waiting} jobs of {self._name} wait at {self._site.own}, so it takes more later"
        files.touch_if_possible(self._waits)
        return ""

    def room(self) -> int:
        """How many more jobs of the neighbour may wait here. (One bundle may have brought more than that, so it may be less than none.)"""
        return self.most_waiting - sum(job.sender == self._name for job in self._site.spool.waiting())

    @property
    def most_waiting(self) -> int:
        """How many jobs of the neighbour may wait here."""
        return self._site.session.setting("UUSPOOL_MOST_WAITING", _MOST_WAITING)

    def _note_waiting(self, queues: bytes) -> None:
        """Keeps how many jobs wait after a bundle. Nothing is there from its unpacking on, and so if a stop comes."""
        with suppress(OSError), open(self._waits, "wb") as file:
            file.write(b"%d" % Queued.read(queues.decode()).jobs)

    def _explained(self, said: str, text: bytes) -> str:
        """Why a text wasn't taken, as a sentence."""
        if "NoBundle" in said:
            return f"no bundle came, but: {plain(text)}"
        if "OtherSender" in said:
            return f"another site answers, not {self._name}: {plain(text)}"
        if "OtherSite" in said:
            return f"this bundle of {self._name} is for another site: {plain(text)}"
        return plain(said.encode())

    def _heed_refusals(self, taken: Taken) -> None:
        """Handles the jobs that the neighbour's spool refuses. Under its number and mark it never takes
        such a job again, so the job gets another number, unless it was done before this site's spool was put back. If the spool
        was put back by hand or got another word, the job may have come before, and then comes twice."""
        passed = is_untold = False
        for refused in taken.settled.refused:
            if refused.reason == "Stale" and self._was_done(refused.number):
                is_untold |= self._refuse_done(taken, refused.number)
            elif refused.reason in ("Differs", "Stale"):
                times = 1
                if refused.reason == "Stale" and not passed:
                    times, passed = self._numbers_to_pass(), True
                self._requeue(taken, refused, times)
            elif refused.reason == "TooLarge":
                is_untold |= self._refuse(refused.number)
            elif refused.reason == "NoSystem":
                taken.faults.append(f"the sys file of {self._name} has to define {self._name}, its own name")
            else:
                taken.faults.append(f"the spool of {self._name} refuses job {refused.number}: {refused.reason}")
        if is_untold:
            from .refusals import tell

            tell(self._site, at_once=False)  # (once, because many are one letter)

    def _was_done(self, number: int) -> bool:
        """Whether a job that the neighbour calls `Stale` was done before the spool was put back."""
        from . import restored

        return restored.was_done(self._site.folder, number)

    def _refuse_done(self, taken: Taken, number: int) -> bool:
        """Refuses a job of a copy that was put back. The neighbour was told that no job of its number comes any more, so it had
        the job before, or the job was killed or moved here before. Nobody knows which if the log is lost, so it is kept."""
        from .refusals import Refuser

        parcel = self._site.spool.show(number)
        why = f"{self._name} had it before the spool here was put back, or it was moved or killed before: queue it again if it never came"
        is_refused = parcel is not None and Refuser(self._site).refuse_alone(parcel, why)
        taken.removed += is_refused
        return is_refused

    def _refuse(self, number: int) -> bool:
        from .refusals import Refuser

        with self._site.alone():
            finish_begun(self._site, self._name)
            parcel = self._site.spool.show(number)
            return parcel is not None and Refuser(self._site).refuse(parcel, f"it is too large for {self._name}")

    def _numbers_to_pass(self) -> int:
        """The neighbour doesn't say up to which number it forgot all, so each bundle of a call that says
        Stale passes twice as many numbers as the one before, by its first such job."""
        self._bundles_with_stale += 1
        return 1 << min(self._bundles_with_stale - 1, _MOST_DOUBLINGS)

    def _requeue(self, taken: Taken, refused: Refused, times: int) -> None:
        from .refusals import NotRemoved, requeue

        number, user, said = refused.number, "", ""
        try:
            for _ in range(times):
                if not self._numbers_left or self._is_over():
                    taken.faults.append(f"{self._name} refuses job {number} ({refused.reason}), and the next call queues it anew")
                    break
                if not (parcel := self._site.spool.show(number)):
                    break  # (somebody removed it meanwhile)
                said, user = requeue(self._site, parcel, self._name), parcel.job.user
                if not said:
                    break
                number, self._numbers_left = int(said.split()[1]), self._numbers_left - 1
                self.renumbered.add(number)
        except (SpoolError, NotRemoved) as error:
            taken.faults.append(f"{self._name} refuses job {number} ({refused.reason}), and it cannot be queued anew: {error}")
            return
        if said:
            taken.requeued += 1
            why = f"as {said}, since {self._name} has another job of this number ({refused.reason})"
            self._site.log.note(self._name, user, refused.number, "requeued", why)
