"""What a call shows of itself, and what it says of its bytes."""
import os
import pty
import time

from uuspool_calls import call, carriers
from uuspool_calls.jobs import Job
from uuspool_calls.processes import Ended
from uuspool_calls.progress import Progress
from uuspool_calls.spool import Settled, Unpacked
from uuspool_calls.traffic import Traffic, shown_size, shown_time

from .standins import LINE, Folder, StandIn, parcel, site
from .test_call import NOTHING, Wire

BUNDLE = b"bundle mysite duke - 1 z 5\n" + b"".join(b"job %d 5 N ann 100 send a b\n%s\n" % (it, bytes(100)) for it in (1, 2, 3)) + b"end\n"
CAME = BUNDLE[: len(BUNDLE) // 2].replace(b"mysite duke", b"duke mysite")


class Line(Folder):
    def setUp(self) -> None:
        super().setUp()
        self.leader, self.follower = pty.openpty()
        for handle in self.leader, self.follower:
            self.addCleanup(os.close, handle)
        self.jobs = [Job.read(LINE.replace("7 ", f"{number} ", 1).replace(" 5 ", " 100 ")) for number in (1, 2, 3, 4)]

    def shown(self) -> list[str]:
        """The lines that were shown, the last one on the terminal."""
        time.sleep(0.05)
        return os.read(self.leader, 65536).decode().split("\r\x1b[K")[1:]

    def test_how_far_a_bundle_is(self) -> None:
        progress = Progress(self.follower, "duke", self.jobs)
        progress.begin(BUNDLE)
        progress._begun -= 10
        progress.watch(300, bytearray(CAME))
        progress.watch(301, bytearray(CAME))  # (too soon)
        progress.end(Traffic(len(BUNDLE), len(CAME), 10.0))
        progress.count([1, 2, 3], 1)
        progress.begin(NOTHING)
        progress._begun -= 10
        progress.watch(0, bytearray())
        first, cleared, second = self.shown()
        self.assertRegex(first, r"^duke: sent 2 jobs 300 B, got 1 job 207 B, 5\d B/s, left 2 jobs 200 B 4 s$")
        self.assertEqual("", cleared)
        self.assertRegex(second, r"^duke: sent 3 jobs 415 B, got 1 job 207 B, \d\d B/s, left 1 job 100 B \d s$")

    def test_a_line_is_no_longer_than_the_terminal(self) -> None:
        progress = Progress(self.follower, "duke" * 100, self.jobs)
        progress.begin(BUNDLE)
        progress.watch(300, bytearray())
        self.assertEqual(79, len(self.shown()[0]))

    def test_a_terminal_that_is_gone_ends_no_call(self) -> None:
        progress = Progress(self.follower, "duke", self.jobs)
        with open(os.devnull, "rb") as nothing:
            os.dup2(nothing.fileno(), self.leader)  # (a terminal whose other end is closed fails each write)
        progress.begin(BUNDLE)
        progress.watch(300, bytearray())
        with self.assertRaises(OSError):
            os.write(self.follower, b"x")

    def test_only_a_call_by_hand_shows_it_on_a_terminal(self) -> None:
        for isatty, night, shown in (True, False, True), (True, True, False), (False, False, False):
            spool = StandIn([parcel()])
            spool.bundles, spool.settled, spool.unpacked = [Ended(0, BUNDLE, b""), Ended(0, NOTHING, b"")], Settled((1,), ()), Unpacked(0, ())
            here, before = site(self.folder, spool), os.isatty
            here.session.processes = Wire(b"back")
            made = call.Call(here, call.Order("duke", night=night), carriers.Carrier("/entry", "/carrier", ("duke",)))
            try:
                os.isatty = lambda handle: isatty and handle == 2
                made._begin()
            finally:
                os.isatty = before
            self.assertEqual(shown, made._progress is not None, (isatty, night))


class Numbers(Folder):
    def test_sizes_and_times(self) -> None:
        self.assertEqual(["0 B", "1 B", "999 B", "1.0 kB", "3.4 MB", "34 MB", "2.0 GB"], [shown_size(it) for it in (0, 1, 999.4, 1000, 3_400_000, 34_000_000, 2_000_000_000)])
        shown = [shown_time(it) for it in (0, 59.4, 60, 100, 3600, 3661, 90_000, 200_000)]
        self.assertEqual(["1 s", "59 s", "1 min", "1 min 40 s", "1 h", "1 h 1 min", "1 d 1 h", "2 d 7 h"], shown)

    def test_a_call_in_the_log(self) -> None:
        carried = Traffic().more(200_000, 0, 10.0).more(70_000, 2300, 8.0)
        self.assertEqual("270000 bytes went, 2300 came in 18.0 s, 15128 bytes/s", str(carried))
