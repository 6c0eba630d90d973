"""Random histories of jobs and files in pieces that are moved, refused, removed by their users and settled, by processes that are
killed at any step. No file is at two neighbours, or half refused, and nothing is lost."""
import contextlib
import hashlib
import os
import random
from collections.abc import Callable, Iterator, Sequence
from unittest import mock

from uuspool_calls import files, move, refusals, refuse
from uuspool_calls.errors import Failure, SpoolError
from uuspool_calls.exchange import finish_begun
from uuspool_calls.jobs import Job, Parcel
from uuspool_calls.pieces import Piece

from .standins import Folder, Quiet, StandIn, parcel, site

_HISTORIES = int(os.environ.get("HISTORIES", "400"))
_STEPS = 12
_NEIGHBOURS = "duke", "unc"


class Killed(BaseException):
    """KILL."""


class Spool(StandIn):
    """A spool that knows keys, and at which a process may be killed before or behind each line."""

    def __init__(self, dies: Callable[[], None]) -> None:
        super().__init__([])
        self.dies = dies
        self.keys: dict[str, int] = {}
        self.next = 0

    def add(self, system: str, user: str, words: Sequence[str], data: bytes) -> int:
        self.next += 1
        self.parcels[self.next] = parcel(f"{self.next} {system} {user} N 2026-11-28 10:00:00 {len(data)} exec {' '.join(words)}", data)
        return self.next

    def show(self, number: int) -> Parcel | None:
        self.dies()
        return super().show(number)

    def waiting(self, system: str = "") -> list[Job]:
        self.dies()
        return super().waiting(system)

    def queue_again(self, job: Job, key: str, system: str, words: Sequence[str], data: bytes) -> str:
        self.dies()
        if key not in self.keys:
            self.keys[key] = self.add(system, job.user, words, data)
        self.dies()
        return f"job {self.keys[key]}"

    def kill(self, job: Job) -> bool:
        self.dies()
        was_there = self.parcels.pop(job.number, None) is not None
        self.dies()
        return was_there


class Whole:
    """What a user queued, and what became of it."""

    def __init__(self, name: str, pieces: int) -> None:
        self.name, self.pieces = name, pieces
        self.was_removed = False  # by its user, perhaps a part of it
        self.unknown: set[int] = set()  # jobs of it that came, of which nobody here knows that
        self.had_left = False  # some of them were, when something was done with the rest
        self.came: dict[str, set[int]] = {it: set() for it in _NEIGHBOURS}


class Histories(Folder):
    """One site, and its users and processes, which move, refuse, remove and settle."""

    def begin(self, seed: int) -> None:
        self.chance, self.left = random.Random(seed), 0
        self.spool = Spool(self.dies)
        self.site = site(self.folder, self.spool)
        self.wholes: dict[str, Whole] = {}

    def dies(self) -> None:
        if self.left:
            self.left -= 1
            if not self.left:
                raise Killed

    @contextlib.contextmanager
    def perhaps_killed(self, most: int = 25) -> Iterator[None]:
        self.left = self.chance.randint(1, most) if self.chance.random() < 0.5 else 0
        try:
            yield
        except (Killed, Failure, SpoolError):
            self.site._is_alone = False
        self.left = 0

    def queue(self) -> None:
        name, count = f"user{len(self.wholes)}", self.chance.choice((1, 2, 3))
        self.wholes[name] = Whole(name, count)
        data = os.urandom(4 * count)
        for at in range(count):
            piece = Piece(hashlib.sha256(data).hexdigest(), 4 * count, 4, f"m{len(self.wholes)}", 4 * at, ("exec", "rmail", name))
            self.spool.add("duke", "ann", ["rmail", name] if count == 1 else piece.line(), data[4 * at : 4 * at + 4])

    def its(self, job: Job) -> Whole:
        return self.wholes[job.words[-1].rpartition("!")[2]]

    def chosen(self) -> Job | None:
        jobs = [it.job for it in self.spool.parcels.values()]
        job = self.chance.choice(jobs) if jobs else None
        if job and self.its(job).unknown:
            self.its(job).had_left = True
        return job

    def move(self) -> None:
        if job := self.chosen():
            target = self.chance.choice([it for it in _NEIGHBOURS if it != job.system])
            with self.perhaps_killed():
                move._move_all(self.site, job.system, target, {job.number}, keeps=self.chance.random() < 0.5)

    def refuse(self) -> None:
        if job := self.chosen():
            with self.perhaps_killed():
                refuse._refuse(self.site, self.spool.parcels[job.number], "because")

    def remove(self) -> None:
        """A user removes all that is listed, or a part of it."""
        if job := self.chosen():
            whole = self.its(job)
            whole.was_removed = True
            most = self.chance.randint(1, 6)
            for number, it in list(self.spool.parcels.items()):
                if self.its(it.job) is whole and most:
                    del self.spool.parcels[number]
                    most -= 1

    def call(self, name: str = "", breaks: bool = True) -> None:
        """A call of a neighbour, that brings the first jobs of a bundle, and may break before this site hears of that."""
        name = name or self.chance.choice(_NEIGHBOURS)
        with self.perhaps_killed() if breaks else contextlib.nullcontext():
            finish_begun(self.site, name)
            jobs = self.spool.waiting(name)
            if breaks:
                jobs = jobs[: self.chance.randint(0, len(jobs))]
            for job in jobs:
                self.bring(name, job)
            if breaks and self.chance.random() < 0.3:
                return
            with self.site.alone():
                finish_begun(self.site, name)
                for job in jobs:
                    self.spool.kill(job)
                    self.its(job).unknown.discard(job.number)

    def bring(self, name: str, job: Job) -> None:
        whole, piece = self.its(job), Piece.of(job)
        at = piece.at // 4 if piece else 0
        whole.came[name].add(at)
        whole.unknown.add(job.number)

    def finish(self) -> None:
        with self.perhaps_killed():
            finish_begun(self.site, "")
            refusals.tell(self.site)

    def play(self, seed: int) -> None:
        self.begin(seed)
        write, remove, replace, rename = files.write_record, files.remove, files.replace, os.rename

        def dying(real: Callable[..., object]) -> Callable[..., object]:
            def work(*given: object) -> object:
                self.dies()
                result = real(*given)
                self.dies()
                return result

            return work

        steps = self.queue, self.queue, self.move, self.move, self.refuse, self.remove, self.call, self.call, self.finish
        patched = (
            mock.patch.object(files, "write_record", dying(write)), mock.patch.object(files, "remove", dying(remove)), mock.patch.object(files, "replace", dying(replace)),
            mock.patch.object(os, "rename", dying(rename)), mock.patch("os.fsync"),
        )  # fmt: skip
        with contextlib.ExitStack() as stack:
            for it in patched:
                stack.enter_context(it)
            for _ in range(_STEPS):
                self.chance.choice(steps)()
        for name in (*_NEIGHBOURS, *_NEIGHBOURS):
            self.call(name, breaks=False)
        for whole in self.wholes.values():
            if fault := self.fault_of(whole):
                self.fail(f"seed {seed}: {whole.name} of {whole.pieces} {fault}: {whole.came}, refused {sorted(os.listdir(f'{self.folder}/refused'))}, {self.site.log}")

    def fault_of(self, whole: Whole) -> str:
        full = [name for name, came in whole.came.items() if len(came) == whole.pieces]
        some = [name for name, came in whole.came.items() if came]
        refused = sum(whole.name in text for text in self.refused())
        if self.spool.parcels:
            return "waits"
        if whole.had_left or whole.was_removed:
            return "" if full or refused or whole.was_removed or some else "is lost"
        if len(full) + (refused > 0) != 1:
            return f"is at {full}, and {refused} of it are refused"
        if full and some != full:
            return "is at two"
        return ""

    def refused(self) -> list[str]:
        return [files.read_bytes(f"{self.folder}/refused/{it}").decode(errors="replace").split("\n")[1] for it in os.listdir(f"{self.folder}/refused") if it[0].isdecimal() and not it.endswith(".warned")]  # type: ignore[union-attr]

    def test_nothing_is_at_two_neighbours_and_nothing_is_lost(self) -> None:
        for seed in range(_HISTORIES):
            self.setUp()
            self.play(seed)


class QueuedAgain(Folder):
    def setUp(self) -> None:
        super().setUp()
        self.session = Quiet(self.folder)
        self.asked = mock.Mock(return_value=b"job 9\n")
        spool = StandIn()
        spool.ask_once = self.asked  # type: ignore[attr-defined]
        self.enterContext(mock.patch.object(refuse, "enter", return_value=site(self.folder, spool)))

    def queue(self, *words: str) -> int:
        return refuse.run(self.session, ["-q", *words])

    def test_a_job_that_was_refused(self) -> None:
        """Its words are a stranger's, and are given as they are."""
        words = "nothing", "$(id)", "*", ";id", "--", "-x", "--as=root"
        self.put("refused/7.2", f"why $(id)\n7 mysite unc!joe C 2026-11-28 10:00:00 6 exec {' '.join(words)}\nby\tes\n")
        self.assertEqual((0, ["job 9"]), (self.queue("7.2", "duke"), self.session.printed))
        self.asked.assert_called_once_with("--as=unc!joe", "exec", "-gC", "--", "duke", *words, given=b"by\tes\n")
        self.assertTrue(os.path.exists(f"{self.folder}/refused/7.2"))
        self.asked.side_effect = SpoolError(1, "refused NoSystem")
        with self.assertRaisesRegex(Failure, r"/refused/7\.2 can't be queued for duke: refused NoSystem$"):
            self.queue("7.2", "duke")

    def test_what_is_no_such_job(self) -> None:
        job = "7 mysite ann N 2026-11-28 10:00:00 1 {} rmail joe\nx"
        os.makedirs(f"{self.folder}/refused/8.file")
        os.symlink(self.put("roots", f"why\n{job.format('exec')}"), f"{self.folder}/refused/link")
        os.mkfifo(f"{self.folder}/refused/pipe")
        for name, text in ("kill", job.format("kill")), ("short", job.format("exec")[:-1]), ("none", ""), ("few", "7 mysite"), ("7.waiting.untold", job.format("exec")), ("3", job.format("exec")), ("3.why", "why"):
            self.put(f"refused/{name}", f"why\n{text}")
        for name, status in ("kill", 75), ("short", 75), ("none", 75), ("few", 75), ("7.waiting.untold", 75), ("3", 75), ("9", 1), ("../roots", 64), (".seen", 64), ("-q", 64):
            with self.assertRaises(Failure) as raised:
                self.queue(name, "duke")
            self.assertEqual(status, raised.exception.status, name)
        for name in "8.file", "link", "pipe":
            with self.assertRaises(OSError):
                self.queue(name, "duke")
        for words in ["7"], ["7", "-x"], ["7", "duke", "unc"], []:
            with self.assertRaisesRegex(Failure, "usage: |wants a value"):
                self.queue(*words)
        self.asked.assert_not_called()
