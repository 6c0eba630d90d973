"""Random histories of jobs that are handed to Taylor UUCP: calls that break, kills, power cuts, logs that are rotated, and users who
remove or move them. Nothing is lost, nothing is refused that Taylor has or brought, and only a power cut has a job come twice."""
import contextlib
import os
import random
from collections.abc import Callable
from unittest import mock

from uuspool_calls import files
from uuspool_calls.handover import Handover
from uuspool_calls.processes import Ended
from uuspool_calls.taylor import Mark, Said, Waiting

from .standins import Folder, StandIn, parcel, site

_HISTORIES = int(os.environ.get("HISTORIES", "400"))
_STEPS = 14
_NOBODY = 4194305  # the number of no process


class Killed(BaseException):
    """KILL, or a power cut."""


class Line:
    """A line of the log."""

    def __init__(self, said: Said, is_synced: bool) -> None:
        self.said, self.is_synced = said, is_synced


class Has:
    """A job in Taylor's spool."""

    def __init__(self, what: str, name: str) -> None:
        self.what, self.name = what, name
        self.is_there = False  # whether the neighbour has it, and this end doesn't know


class TaylorSpool:
    """Taylor UUCP, and the neighbour behind it. What it wrote since the last sync may be lost in a power cut."""

    def __init__(self, chance: random.Random, dies: Callable[[], None]) -> None:
        self.chance, self.dies = chance, dies
        self.jobs: dict[str, Has] = {}
        self.synced: dict[str, Has] = {}  # what is on the disk
        self.log: list[Line] = []
        self.file = 1  # the number of the log's file
        self.begins = 0  # where the log begins, since logrotate took away what was before
        self.looked = 0  # what the last whole round saw of it
        self.number = self.process = self.seconds = 0
        self.came: list[str] = []  # at the neighbour
        self.taken_back: set[str] = set()
        self.began: set[str] = set()  # jobs of which a call began to send them, and broke

    # ---- what Handover asks

    def waiting(self) -> list[Waiting]:
        self.dies()
        return [Waiting(name, "duke", "uucp", f"Executing {it.what} (sending 5 bytes)") for name, it in self.jobs.items()]

    def kill(self, name: str) -> None:
        self.dies()
        if name in self.jobs:
            self.taken_back.add(self.jobs.pop(name).what)
        self.sync_what_left()
        self.dies()

    def sync_what_left(self) -> None:
        self.dies()
        self.synced = {name: it for name, it in self.synced.items() if name in self.jobs}

    def sync(self, name: str) -> bool:
        """A job of the spool, and the log, are on the disk."""
        self.dies()
        if name not in self.jobs or self.chance.random() < 0.1:
            return False
        self.synced[name] = self.jobs[name]
        for line in self.log:
            line.is_synced = True
        self.dies()
        return True

    def data_of(self, name: str) -> str:
        return self.jobs[name].name if name in self.jobs else ""

    def begin_names(self, moves_on: bool) -> bool:
        return True

    def mark(self) -> Mark:
        return Mark(self.file, len(self.log))

    def said_since(self, *marks: Mark) -> list[Said] | None:
        self.dies()
        place = min(it.place if it.file == self.file else 0 for it in marks)
        return [it.said for it in self.log[max(place, self.begins) :]]

    def whens(self) -> list[str]:
        return [it.said.when for it in self.log[self.begins :]][-100:]

    def run(self, name: str, *words: str, given: bytes | int = b"") -> Ended:
        """uux: it takes the job, and says its name in the spool."""
        self.dies()
        what = " ".join(word.strip("()") for word in (words[-2].partition("!")[2], words[-1]))
        self.number, self.process = self.number + 1, self.process + 1
        self.jobs[f"duke.N{self.number}"] = Has(what, f"D.{self.number}")
        if self.chance.random() < 0.1:
            return Ended(137, b"", b"")  # (killed before its line)
        self.say(f"Queuing {what} (D.{self.number})")
        if self.chance.random() < 0.1:
            return Ended(137, b"", b"")
        self.dies()
        return Ended(0, f"duke.N{self.number}\n".encode(), b"")

    # ---- what happens there

    def say(self, text: str) -> None:
        self.seconds += 1
        self.log.append(Line(Said(f"2026-11-28 15:{self.seconds // 60 % 60:02}:{self.seconds % 60:02}.{self.seconds} {_NOBODY + self.process}", text), False))

    def call(self) -> None:
        """A call, which may break at any job, before or behind the moment at which the neighbour has it."""
        self.process += 1
        self.say("Calling system duke (port b)")
        if self.chance.random() < 0.2:
            self.say("ERROR: Line busy")
            return
        self.say("Handshake successful (protocol 'i')")
        for name, it in list(self.jobs.items()):
            end = self.chance.random()
            if it.is_there:
                del self.jobs[name]
                continue
            self.say(f"Sending {it.what} ({it.name}) (5 bytes)")
            if end < 0.15 or end > 0.9:
                it.is_there = end > 0.9
                self.began.add(it.what)
                self.came += [it.what] * it.is_there
                self.say("ERROR: Line disconnected")
                break
            self.came.append(it.what)
            del self.jobs[name]
        self.say("Call complete (1 seconds 5 bytes 5 bps)")

    def sync_all(self) -> None:
        """As the kernel does from time to time."""
        self.synced = dict(self.jobs)
        for line in self.log:
            line.is_synced = True

    def lose_power(self) -> None:
        """Some of what isn't on the disk is lost: new jobs, the end of the log, and that jobs went."""
        for name, it in list(self.jobs.items()):
            if name not in self.synced and self.chance.random() < 0.5:
                del self.jobs[name]
        for name, it in self.synced.items():
            if name not in self.jobs and self.chance.random() < 0.5:
                self.jobs[name] = it  # (its removal is lost)
        keeps = self.chance.randint(sum(it.is_synced for it in self.log), len(self.log))
        del self.log[keeps:]
        self.begins, self.looked = min(self.begins, keeps), min(self.looked, keeps)
        self.sync_all()


class History(Folder):
    """One site, and what happens to it."""

    def begin(self, seed: int) -> None:
        self.chance = random.Random(seed)
        self.left = 0  # steps of a process until it dies, if that isn't 0
        self.boot = 0
        self.taylor = TaylorSpool(self.chance, self.dies)
        self.spool = StandIn([])
        self.site = site(self.folder, self.spool)
        self.number = 0
        self.wanted: set[str] = set()  # jobs that nobody took back
        self.gone: set[str] = set()  # those that a user removed, and a round took back
        self.had_cut: set[str] = set()  # those that were there in a power cut
        self.loses_log = self.chance.random() < 0.5  # whether logrotate takes away what a round saw

    def dies(self) -> None:
        if self.left:
            self.left -= 1
            if not self.left:
                raise Killed

    def queue(self) -> None:
        self.number += 1
        what = f"rmail user{self.number}"
        self.spool.parcels[self.number] = parcel(f"{self.number} duke ann N 2026-11-28 10:00:00 5 exec {what}")
        self.wanted.add(what)

    def remove(self) -> None:
        """Its user kills a job, or it is moved."""
        if self.spool.parcels:
            it = self.spool.parcels.pop(self.chance.choice(sorted(self.spool.parcels)))
            what = " ".join(it.job.words)
            self.wanted.discard(what)
            if self.chance.random() < 0.7:
                Handover(self.site, "duke", self.taylor).take_back()  # type: ignore[arg-type]
                if what not in self.taylor.came:
                    self.gone.add(what)

    def round(self) -> None:
        """A call of this site."""
        handover = Handover(self.site, "duke", self.taylor)  # type: ignore[arg-type]
        handover.look()
        handover.hand(handover.new(""))
        if self.chance.random() < 0.5:
            self.taylor.call()
            handover.look()
        self.taylor.looked = len(self.taylor.log)

    def killed_round(self) -> None:
        self.left = self.chance.randint(1, 30)
        try:
            self.round()
        except Killed:
            pass
        self.left = 0

    def take_out(self) -> None:
        """Somebody takes a job out of Taylor's spool, as `uudemon.day` does."""
        if self.taylor.jobs:
            it = self.taylor.jobs.pop(self.chance.choice(sorted(self.taylor.jobs)))
            self.taylor.taken_back.add(it.what)
            self.taylor.sync_what_left()

    def cut(self) -> None:
        """A power cut, perhaps within a call."""
        if self.chance.random() < 0.5:
            self.killed_round()
        self.boot += 1
        self.had_cut |= {" ".join(it.job.words) for it in self.spool.parcels.values()} | {it.what for it in self.taylor.jobs.values()} | set(self.taylor.came)
        self.taylor.lose_power()

    def rotate(self) -> None:
        self.taylor.file += 1
        if self.loses_log:
            self.taylor.begins = max(self.taylor.begins, self.taylor.looked)

    def step(self) -> None:
        steps = self.queue, self.queue, self.round, self.killed_round, self.taylor.call, self.taylor.call, self.taylor.sync_all, self.remove, self.take_out, self.cut, self.rotate
        self.chance.choice(steps)()

    def play(self, seed: int) -> None:
        self.begin(seed)
        write, remove = files.write_record, files.remove

        def dying_write(path: str, record: "dict[str, object]") -> None:
            self.dies()
            write(path, record)
            self.dies()

        def dying_remove(path: str) -> None:
            self.dies()
            remove(path)

        done = self.spool.done

        def dying_done(system: str, number: int | None = None, again: bool = True) -> None:
            self.dies()
            done(system, number, again)
            self.spool.parcels.pop(number or 0, None)
            self.dies()

        patched = (
            mock.patch.object(files, "write_record", dying_write), mock.patch.object(files, "remove", dying_remove), mock.patch.object(self.spool, "done", dying_done),
            mock.patch("uuspool_calls.clock.boot", lambda: str(self.boot)), mock.patch("os.fsync"),
        )  # fmt: skip
        with contextlib.ExitStack() as stack:
            for it in patched:
                stack.enter_context(it)
            for _ in range(_STEPS):
                self.step()
            self.chance.random = lambda: 0.5  # type: ignore[method-assign]
            for _ in range(3):
                self.round()
                self.taylor.call()
            self.round()
        self.expect_end(seed)

    def expect_end(self, seed: int) -> None:  # type: ignore[override]
        refused = {" ".join(it.split(" ")[8:]) for it in self.refused()}
        for what in sorted(self.wanted):
            count = self.taylor.came.count(what)
            # (What somebody took out may count as brought, if a call that broke began to send it, or the log lost when it was handed.)
            may_count = what in self.taylor.taken_back and (what in self.taylor.began or self.loses_log)
            if count == 0 and what not in refused and not may_count:
                self.fail(f"seed {seed}: {what} is lost")
            if what in refused and what not in self.taylor.taken_back:
                self.fail(f"seed {seed}: {what} is refused, and came {count} times")
            if count > 1 and what not in self.had_cut:
                self.fail(f"seed {seed}: {what} came {count} times")

        for what in sorted(self.gone.intersection(self.taylor.came)):
            self.fail(f"seed {seed}: {what} came though it was taken back")

    def refused(self) -> list[str]:
        """The lines of the jobs that were refused."""
        folder = f"{self.folder}/refused"
        return [files.read_bytes(f"{folder}/{it}").decode().split("\n")[1] for it in os.listdir(folder) if it[0].isdecimal()]  # type: ignore[union-attr]

    def test_nothing_is_lost_and_nothing_comes_twice(self) -> None:
        for seed in range(_HISTORIES):
            self.setUp()
            self.play(seed)
