"""What the spool is asked, and what its answers mean; and the log."""
import contextlib
import errno
import os
import signal
import time
from collections.abc import Callable, Iterator
from unittest import mock

from uuspool_calls import deliver, refuse
from uuspool_calls.errors import Failure, SpoolError
from uuspool_calls.files import Lock, closing
from uuspool_calls.jobs import Job
from uuspool_calls.journal import Journal
from uuspool_calls.processes import Child, Ended, Program
from uuspool_calls.site import Site
from uuspool_calls.spool import Due, Queued, Refused, Spool

from .standins import LINE, Closing, Folder, StandIn, parcel, site

FAILED = Ended(3, b"", b"uuspool: spool: store\nuuspool: cause: no space left\n")


class Answers(Closing):
    """Answers of the spool, one after the other."""

    def __init__(self, *answers: Ended | bytes) -> None:
        super().__init__()
        self.answers = [it if isinstance(it, Ended) else Ended(0, it, b"") for it in answers]
        self.words: list[list[str]] = []
        self.given: list[bytes | int] = []
        self.pauses = 0

    def run(self, program: Program, given: bytes | int = b"", joined: bool = False) -> Ended:
        self.words.append(list(program.words[1:]))
        self.given.append(given)
        return self.answers.pop(0)

    def pause(self, seconds: float) -> None:
        self.pauses += 1


class Spools(Folder):
    def spool(self, *answers: Ended | bytes) -> Spool:
        self.answers = Answers(*answers)
        return Spool(["/uuspool"], self.folder, {}, self.answers)

    def test_a_spool_that_fails_is_asked_again(self) -> None:
        self.assertEqual("a\n", self.spool(FAILED, Ended(5, b"", b"x"), Ended(137, b"", b""), b"a\n").systems())
        self.assertEqual(3, self.answers.pauses)
        with self.assertRaises(SpoolError) as raised:
            self.spool(*[FAILED] * 6).systems()
        self.assertEqual(("uuspool: spool: store no space left", False), (str(raised.exception), raised.exception.is_final))

    def test_what_is_refused_or_wrong_is_not_asked_again(self) -> None:
        for status, output, errors, said in (1, b"refused NoSystem\n", b"", "refused NoSystem"), (2, b"", b"uuspool: name: BadGrade\n", "uuspool: name: BadGrade"):
            with self.assertRaises(SpoolError) as raised:
                self.spool(Ended(status, output, errors)).ask("send")
            self.assertEqual((said, True, 0), (str(raised.exception), raised.exception.is_final, self.answers.pauses))

    def test_a_spool_for_which_no_process_can_be_begun_has_failed(self) -> None:
        """A stop ends this process afterwards as before."""
        processes = Closing()
        spool = Spool(["/uuspool"], self.folder, {}, processes)
        with mock.patch("os.fork", side_effect=BlockingIOError(errno.EAGAIN, "no room")), self.assertRaises(SpoolError) as raised:
            spool.ask_once("done", "--", "duke")
        self.assertEqual(("/uuspool cannot be run: no room", 75, False), (str(raised.exception), raised.exception.status, raised.exception.is_final))
        self.assertFalse(signal.pthread_sigmask(signal.SIG_BLOCK, ()) & {signal.SIGHUP, signal.SIGINT, signal.SIGTERM})

    def test_a_fault_of_the_settings_or_of_the_clock_is_none_of_the_job(self) -> None:
        for said in "uuspool: settings: name bad", "uuspool: time: MomentRange":
            with self.assertRaises(SpoolError) as raised:
                self.spool(*[Ended(2, b"", f"{said}\n".encode())] * 6).ask("send")
            self.assertEqual((said, False, 5), (str(raised.exception), raised.exception.is_final, self.answers.pauses))

    def test_lists(self) -> None:
        self.assertEqual([Due("duke", "A"), Due("unc", "N")], self.spool(b"duke A 7\nunc N 3\n").due())
        self.assertEqual(["duke"], self.spool(b"duke - - 0 2026-11-28 10:00:00 due\nunc - - 60 2026-11-28 10:01:00 closed\nphs - - never closed\n").open_now())
        self.assertEqual([Job.read(LINE)], self.spool(LINE.encode() + b"\n").waiting("duke"))
        self.assertEqual(["list", "-sduke"], self.answers.words[0])
        self.assertEqual([], self.spool(b"").waiting())
        self.assertEqual(Queued(64, 66060299), self.spool(b"duke 64 66060299 N 2026-11-28 15:57:49\n").queued("duke"))
        self.assertEqual(Queued(0, 0), self.spool(b"").queued("duke"))

    def test_batches(self) -> None:
        lines = (["unpack", "--", "duke"], b"two\nlines"), (["pack", "-gz", "--", "duke"], b"")
        self.assertEqual([b"duke done\n", b"ours\n\n"], self.spool(b"0 10 0\nduke done\n0 6 0\nours\n\n").batch("w1", *lines))
        self.assertEqual((["batch"], b"9 unpack -- duke\ntwo\nlines0 pack --spool=w1 -gz -- duke\n"), (self.answers.words[0], self.answers.given[0]))
        for text in b"0 10 0\nduke done\n", b"0 10 0\nduke done\n0 6 0\nours\n", b"0 10 0\nduke done\n3 0 7\nuuspool", b"Welcome to this\nmachine\n", b"":
            self.assertIsNone(self.spool(text).batch("w1", *lines), text)
        self.assertEqual(Queued(3, 12), Queued.read("duke 1 5 N 2026-11-28 15:57:49\nunc 2 7 N 2026-11-28 15:57:49\n"))

    def test_settled(self) -> None:
        settled = self.spool(b"duke 1 3\nduke 9\nduke refused 4 Differs\n").settle("duke", b"text")
        self.assertEqual(((1, 3, 9), (Refused(4, "Differs"),)), (settled.done, settled.refused))
        self.assertEqual((), self.spool(b"duke\n").settle("duke", b"text").done)

    def test_unpacked(self) -> None:
        text = b"duke done\n1 job 7\n2 refused Stale\n3 refused NumbersOut\nskipped 9\n"
        unpacked = self.spool(Ended(1, text, b"")).unpack("duke", ["unc"], b"text")
        self.assertEqual((1, ("Stale", "NumbersOut"), 1), (unpacked.jobs, unpacked.refusals, unpacked.unwanted))
        self.assertEqual(["unpack", "--", "duke", "unc"], self.answers.words[0])
        self.assertEqual(("NoSystem",), self.spool(Ended(1, b"duke refused NoSystem\n", b"")).unpack("duke", [], b"").refusals)
        with self.assertRaises(SpoolError):
            self.spool(FAILED).unpack("duke", [], b"")

    def test_shown(self) -> None:
        text = LINE.encode() + b"\nhello"
        parcel = self.spool(text).show(7)
        self.assertEqual((text, b"hello", ("rmail", "joe")), parcel and (parcel.text, parcel.data, parcel.job.words))
        self.assertIsNone(self.spool(Ended(1, b"no job\n", b"")).show(7))
        for answer, why in (FAILED, "job 7 cannot be shown: uuspool: spool: store"), (Ended(0, text[:-1], b""), "job 7 cannot be read from the spool: 4 of 5 bytes"), (Ended(0, b"", b""), "cannot be read"):
            with self.assertRaisesRegex(Failure, why):
                self.spool(answer).show(7)

    def test_what_is_gone_is_no_fault(self) -> None:
        gone = Ended(1, b"refused NoJob\n", b"")
        self.spool(gone).kill(Job.read(LINE))
        self.assertEqual(["--as=ann", "kill", "--", "7"], self.answers.words[0])
        self.spool(gone).done("mysite", 7)
        with self.assertRaises(SpoolError):
            self.spool(Ended(1, b"refused NoSystem\n", b"")).done("duke")
        with self.assertRaises(SpoolError):
            self.spool(Ended(1, b"refused NotYours\n", b"")).kill(Job.read(LINE))

    def test_queued_again(self) -> None:
        self.assertEqual("job 9", self.spool(b"job 9\n").queue_again(Job.read(LINE), "a!7!again", "unc", ["rmail", "-x"], b""))
        self.assertEqual(["--as=ann", "exec", "-gN", "--once=a!7!again", "--", "unc", "rmail", "-x"], self.answers.words[0])


class Kills(Folder):
    """A line of the program that waits for its turn while what began it is killed."""

    def test_it_keeps_the_lock_under_which_it_was_begun(self) -> None:
        def alone(here: Site) -> None:
            with here.alone():
                here.spool.kill(Job.read(LINE))

        of_a_job = "deliver/7.lock"
        own = parcel(LINE.replace("duke", "mysite"))
        for path, work in (
            ("moves/.lock", alone),
            (of_a_job, lambda here: deliver.Deliverer(here).deliver(7)),
            (of_a_job, lambda here: deliver.Deliverer(here).note_killed(7, 9)),
            (of_a_job, lambda here: refuse._refuse(here, own, "why")),
        ):  # fmt: skip
            self.expect_kept(path, work)

    def expect_kept(self, path: str, work: Callable[[Site], object]) -> None:
        """Others get a lock only once the line has ended."""
        waits = self.put("waits", "#!/bin/sh\necho $$ >new\nmv new begun\nexec sleep 1000\n", 0o755)
        here = site(self.folder, StandIn())
        here.spool = Spool([waits], self.folder, dict(os.environ), Closing())
        child = Child(lambda: work(here) and 1 or 0)
        ends = time.monotonic() + 60
        while not os.path.exists(f"{self.folder}/begun"):
            self.assertLess(time.monotonic(), ends)
            time.sleep(0.01)
        with opened_process(int(self.bytes_of("begun"))) as line, Lock(f"{self.folder}/{path}") as lock:
            child.kill()
            self.assertEqual(128 + signal.SIGKILL, child.wait())
            self.assertFalse(lock.take(), path)
            signal.pidfd_send_signal(line, signal.SIGKILL)
            self.assertTrue(lock.wait(60, time.sleep), path)
        os.remove(f"{self.folder}/begun")


@contextlib.contextmanager
def opened_process(number: int) -> Iterator[int]:
    """A process, which is ended then."""
    with closing(os.pidfd_open(number)) as handle:
        try:
            yield handle
        finally:
            with contextlib.suppress(ProcessLookupError):
                signal.pidfd_send_signal(handle, signal.SIGKILL)


class Journals(Folder):
    def test_lines(self) -> None:
        said: list[str] = []
        log = Journal(f"{self.folder}/log", "UTC0", said.append)
        log.note("duke", "", "", "not set up", "x\x1by")
        self.assertRegex(self.bytes_of("log").decode(), r"\A\d{4}-\d\d-\d\d \d\d:\d\d:\d\d duke - - not-set-up x\?y\n\Z")
        os.remove(f"{self.folder}/log")
        os.mkdir(f"{self.folder}/log")
        log.note("duke", "ann", 7, "says", "hello")
        self.assertRegex(said[0], rf"{self.folder}/log cannot be written, and lacks: \S+ \S+ duke ann 7 says hello")
        os.mkfifo(f"{self.folder}/pipe")
        Journal(f"{self.folder}/pipe", "UTC0", said.append).note("duke", "ann", 7, "says", "hello")  # (Nobody reads it.)
        self.assertIn(f"{self.folder}/pipe cannot be written, and lacks: ", said[1])

    def test_a_line_that_a_full_disk_tore(self) -> None:
        """The next one is a line of its own. A line isn't there if only its beginning could be written."""
        said: list[str] = []
        log = Journal(self.put("log", "a\nb"), "UTC0", said.append)
        self.assertEqual([True, True], [log.note("duke", "", "", "says", it, lasts=True) for it in ("one", "two")])
        words = [line.split(" ")[5:] for line in self.bytes_of("log").decode().split("\n")]
        self.assertEqual([[], [], ["says", "one"], ["says", "two"], []], words)
        real = os.write
        with mock.patch("os.write", lambda handle, text: real(handle, text[:30])):
            self.assertFalse(log.note("duke", "", "", "says", "three"))
        self.assertIn("log cannot be written, and lacks: ", said[0])
        self.assertTrue(log.note("duke", "", "", "says", "four"))
        self.assertRegex(self.bytes_of("log").decode(), r"\n.{30}\n.{19} duke - - says four\n\Z")
