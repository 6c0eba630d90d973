"""Calls and answers, with a carrier and a spool that do what a table says."""
import os
import re
from contextlib import suppress
from unittest import mock

from uuspool_calls import answer, call, carriers, clock, executions, forecast, handover
from uuspool_calls.errors import Failure, SpoolError, Stopped
from uuspool_calls.processes import Ended, Program, Watch
from uuspool_calls.site import Site
from uuspool_calls.spool import Due, Refused, Settled, Unpacked

from .standins import LINE, Folder, Mailer, StandIn, parcel, site

NOTHING = b"bundle mysite duke - 1 z 5\nend\n"
BACK, BACK_1, BACK_2, BACK_3, BACK_4 = (b"back %d\nhas 3 5\n" % number for number in range(5))
JOB = b"bundle mysite duke - 1 z 5\njob 1 5 N ann 1 send a b\nx\nend\n"


def put_on_the_way(test: Folder, spool: StandIn) -> Site:
    """A site that hands mail of duke on to systems, of which unc has plain Taylor UUCP."""
    made = site(test.folder, spool)
    test.put("etc/forward", "duke unc phs\n")
    test.put("lib/uuspool/carriers/taylor", mode=0o755)
    test.put("etc/calls/unc", "taylor --no-call\n")
    return made


def _offering(*numbers: int) -> bytes:
    """A bundle with jobs of these numbers."""
    return JOB.replace(b"job 1 5 N ann 1 send a b\nx\n", b"".join(b"job %d 5 N ann 1 send a b\nx\n" % number for number in numbers))


class Wire(Mailer):
    """A carrier that brings one answer after the other."""

    def __init__(self, *answers: Ended | bytes) -> None:
        super().__init__()
        self.answers = [it if isinstance(it, Ended) else Ended(0, it, b"") for it in answers]

    def run(self, program: Program, given: bytes | int = b"", joined: bool = False, watch: Watch | None = None) -> Ended:
        self.ran.append((list(program.words), given))
        self.environment = program.environment
        return self.answers.pop(0)


class Stopping(Mailer):
    """A carrier in whose midst the call is killed."""

    def run(self, program: Program, given: bytes | int = b"", joined: bool = False, watch: Watch | None = None) -> Ended:
        raise Stopped


class Calls(Folder):
    def setUp(self) -> None:
        super().setUp()
        self.spool = StandIn()
        self.site = site(self.folder, self.spool)
        self.order = call.Order("duke")
        self.carrier = carriers.Carrier("/entry", "/carrier", ("duke", "x"))

    def make(self, bundles: list[bytes], *answers: Ended | bytes) -> list[bytes]:
        """What a call carries there."""
        self.spool.bundles = [Ended(0, it, b"") for it in bundles]
        self.site.session.processes = self.wire = Wire(*answers)
        call.Call(self.site, self.order, self.carrier).make()
        return [given for _, given in self.wire.ran]

    def failing(self, why: str, noted: str, bundles: list[bytes], *answers: Ended | bytes) -> None:
        with self.assertRaisesRegex(Failure, f"the call of duke failed: {re.escape(why)}") as raised:
            self.make(bundles, *answers)
        self.assertEqual((75, ("failed", "--", "duke", noted)), (raised.exception.status, self.spool.asked[-1]))

    def test_a_call_that_moves_nothing_makes_no_answer(self) -> None:
        self.assertEqual([NOTHING], self.make([NOTHING], BACK))
        self.assertEqual(["pack", "settle", "unpack", "done"], [asked[0] for asked in self.spool.asked])

    def test_mail_for_plain_taylor_is_delivered_here_first(self) -> None:
        self.site = put_on_the_way(self, self.spool)
        self.make([NOTHING], BACK)
        self.assertEqual([("unpack", "duke", "phs")], [it for it in self.spool.asked if it[0] == "unpack"])

    def test_one_round(self) -> None:
        self.spool.settled = Settled((3,), ())
        self.assertEqual([JOB], self.make([JOB, NOTHING], BACK))
        self.assertRegex(self.site.log[0], r"^duke   called 1 of our jobs are there, 0 came; 58 bytes went, 15 came in 0\.\d s, \d+ bytes/s$")
        self.assertEqual(["duke has 1 more of our jobs, and 0 came"], self.site.session.printed)
        self.assertEqual((["/carrier", "duke", "x"], "mysite", "duke"), (self.wire.ran[0][0], *(self.wire.environment[f"UUSPOOL_{it}"] for it in ("HERE", "SYSTEM"))))
        self.assertEqual(["duke.json"], os.listdir(f"{self.folder}/calls"))
        self.assertAlmostEqual(clock.now(), self.site.contacts.find("duke").called, delta=60)

    def test_it_goes_on_while_jobs_move(self) -> None:
        self.spool.settled = Settled((3,), ())
        self.assertEqual([JOB, JOB, JOB], self.make([JOB, JOB, JOB, NOTHING], BACK_1, BACK_2, BACK_3))
        self.spool.settled, self.spool.unpacked = Settled((), ()), Unpacked(1, ())
        self.assertEqual([NOTHING, NOTHING], self.make([NOTHING, NOTHING], BACK_4, b""))

    def test_a_bundle_that_came_before_ends_it_and_counts_once(self) -> None:
        self.spool.unpacked = Unpacked(2, ())
        self.assertEqual(2, len(self.make([NOTHING, NOTHING, NOTHING], BACK, BACK)))
        self.assertEqual(["duke has 0 more of our jobs, and 2 came"], self.site.session.printed)

    def test_what_came_whole_counts_though_the_carrier_failed(self) -> None:
        self.failing("the line fell", "the-line-fell", [JOB], Ended(1, BACK, b"first\r\nthe line fell\r", read=30))
        self.assertEqual([("settle", "duke"), ("unpack", "duke")], self.spool.asked[-3:-1])
        self.assertEqual(["duke   says first", "duke   says the line fell"], self.site.log[:2])
        self.assertRegex(self.site.log[2], r"^duke   failed-call the line fell; 30 bytes went, 15 came in 0\.\d s, \d+ bytes/s$")

    def test_after_a_call_that_broke_the_first_bundle_has_no_jobs(self) -> None:
        self.failing("the line fell", "the-line-fell", [JOB], Ended(1, b"", b"the line fell"))
        self.assertEqual([NOTHING, JOB], self.make([JOB, NOTHING, JOB, NOTHING], BACK, b"last"))
        self.assertEqual([("pack", "--no-jobs", "-g0", "--", "duke"), ("pack", "--", "duke")], [it for it in self.spool.asked if it[0] == "pack"][-2:])
        self.assertEqual([JOB], self.make([JOB, NOTHING], BACK))

    def test_after_a_call_that_broke_jobs_of_the_neighbour_come_in_the_end(self) -> None:
        """If none of ours waits, at once; if all of ours were there already, in the next exchange."""
        for first, asks, last in (NOTHING, [("--no-jobs",)], ()), (JOB, [("--no-jobs", "-g0"), ()], (b"last",)):
            self.failing("the line fell", "the-line-fell", [JOB], Ended(1, b"", b"the line fell"))
            self.spool.asked.clear()
            self.assertEqual(1 + len(last), len(self.make([first, *[NOTHING] * 4], BACK, *last)))
            packed = [words[2 if words[1].startswith("--most") else 1 : -2] for words in self.spool.asked if words[0] == "pack"]
            self.assertEqual([(), *asks], packed)

    def test_if_nothing_is_answered_then_the_jobs_go_all_the_same(self) -> None:
        self.failing("the line fell", "the-line-fell", [JOB], Ended(1, b"", b"the line fell"))
        self.assertEqual([NOTHING, JOB], self.make([JOB, NOTHING], b"", b""))

    def test_if_the_answer_cannot_be_taken_then_the_jobs_go_all_the_same(self) -> None:
        self.failing("the line fell", "the-line-fell", [JOB], Ended(1, b"", b"the line fell"))
        self.spool.fails = {"unpack": SpoolError(3, "the disk is full")}
        self.failing("the disk is full", "the-disk-is-full", [JOB, NOTHING], BACK, BACK)
        self.assertEqual([NOTHING, JOB], [given for _, given in self.wire.ran])

    def test_a_call_that_was_killed_counts_as_one_that_broke(self) -> None:
        self.spool.bundles = [Ended(0, JOB, b"")]
        self.site.session.processes = Stopping()
        with self.assertRaises(Stopped):
            call.Call(self.site, self.order, self.carrier).make()
        self.assertEqual([NOTHING, JOB], self.make([JOB, NOTHING, JOB, NOTHING], BACK, b"last"))
        self.assertEqual([JOB], self.make([JOB, NOTHING], BACK))

    def test_a_poll_after_a_call_that_broke_is_a_poll(self) -> None:
        self.failing("the line fell", "the-line-fell", [JOB], Ended(1, b"", b"the line fell"))
        self.order = call.Order("duke", poll=True)
        self.assertEqual([NOTHING], self.make([NOTHING, NOTHING], BACK))

    def test_why_it_failed(self) -> None:
        self.failing("/carrier ended with status 1 and said nothing", "/carrier-ended-with-status-1-and-said-nothing", [JOB], Ended(1, b"", b""))
        self.spool.fails = {"unpack": SpoolError(2, "uuspool: bundle: NoBundle")}
        noted = "no-bundle-came,-but:-Welcome"
        self.failing("no bundle came, but: Welcome", noted, [JOB, NOTHING], b"Welcome\n", b"Welcome\n")
        self.failing("no bundle came, but: Welcome", noted, [JOB, NOTHING], Ended(1, b"Welcome\n", b""))
        much = "more than 4273224 bytes came from duke, so it is no bundle"
        self.failing(much, much.replace(" ", "-"), [JOB, NOTHING], Ended(143, bytes(4_273_225), b"", True))
        self.failing("/carrier wrote more than 4273224 bytes of errors", "/carrier-wrote-more-than-4273224-bytes-of-errors,-and-was-ended", [JOB, NOTHING], Ended(143, b"", b"?", True))

    def test_a_call_that_takes_too_long(self) -> None:
        now, ticks = clock.running, iter([0.0, 1.0, 3600.0])
        try:
            clock.running = lambda: next(ticks)
            self.failing("it was not over after 3600 seconds (UUSPOOL_CALL_LIMIT), and was ended", "too-long", [JOB], Ended(124, b"", b"said"))
        finally:
            clock.running = now

    def test_limits_of_an_entry(self) -> None:
        self.carrier = self.carrier._replace(limit=60)
        now, ticks = clock.running, iter([0.0, 1.0, 60.0])
        try:
            clock.running = lambda: next(ticks)
            self.failing("it was not over after 60 seconds (limit in /entry), and was ended", "too-long", [JOB], Ended(124, b"", b"said"))
        finally:
            clock.running = now

    def test_bytes_of_a_bundle(self) -> None:
        self.carrier = self.carrier._replace(most=9000)
        self.spool.settled = Settled((3,), ())
        self.make([JOB, JOB, NOTHING], BACK_1, BACK_2)
        made = [words for words in self.spool.asked if words[0] in ("pack", "answer")]
        self.assertEqual([("pack", "--most=9000", "--", "duke"), ("answer", "--most=9000", "--", "duke")], made[:2])
        self.assertEqual("9000", self.wire.environment["UUSPOOL_MOST"])

    def test_after_a_line_fell_bundles_are_smaller(self) -> None:
        """A quarter of what the call carried, and twice as many with each call that was made."""
        for ended, most in (
            (Ended(1, b"", b"fell", read=4_000_000), 1_000_000), (Ended(1, bytes(100_000), b"fell", read=900_000), 250_000), (Ended(1, b"", b"fell", read=1000), 65536),
            (Ended(1, b"", b"no carrier"), 65536), (Ended(0, b"", b""), 131072), (Ended(1, b"", b"fell", read=12_000_000), 3_000_000), (Ended(0, b"", b""), 0), (Ended(0, b"", b""), 0),
        ):  # fmt: skip
            before = self.site.contacts.find("duke").most
            self.spool.fails = {"unpack": SpoolError(2, "uuspool: bundle: NoBundle")}
            with suppress(Failure):
                self.make([JOB, JOB, NOTHING], *[ended] * 2)
            options = [f"--most={before}"] if before else []
            self.assertEqual(("pack", *options, "--", "duke"), next(words for words in self.spool.asked if words[0] == "pack"))
            self.assertEqual(most, self.site.contacts.find("duke").most)
            self.spool.asked.clear()
        self.put("lib/uuspool/carriers/uucico", "", 0o755)
        self.site.contacts.change("duke", most=65536)
        for carrier, most in (self.carrier, 65536), (self.carrier._replace(most=9000), 9000), (self.carrier._replace(program=f"{self.folder}/lib/uuspool/carriers/uucico"), 0):
            self.assertEqual(most, call.Call(self.site, self.order, carrier)._most)

    def test_nothing_is_mounted(self) -> None:
        self.carrier = self.carrier._replace(words=("duke", self.folder), mounted=True)
        why = f"nothing is mounted at {self.folder}"
        self.failing(why, why.replace(" ", "-")[:60], [JOB])

    def test_a_window_ends_a_call(self) -> None:
        """The window closes with a minute, whenever a call begins."""
        self.carrier = self.carrier._replace(until="window")
        for begins in 0, 1, 30, 59, 60, 61, 1900, 3000, 3470:
            now = (clock.now() + 4000) // 60 * 60 - begins
            self.spool.open = lambda moment: moment // 60 <= (now + begins) // 60
            self.spool.asked.clear()
            made = call.Call(self.site, self.order, self.carrier)
            with mock.patch("uuspool_calls.clock.now", return_value=now):
                made._heed_window()
            self.assertAlmostEqual(begins + 60, made._closes - clock.running(), delta=1)
            self.assertAlmostEqual(60, made._ends - made._closes, delta=1)
            self.assertLess(len(self.spool.asked), 20)
        for opened in (lambda moment: True), (lambda moment: False):
            self.spool.open = opened
            made = call.Call(self.site, self.order, self.carrier)
            made._heed_window()
            self.assertEqual(float("inf"), made._closes)

    def test_after_the_window_no_exchange_begins(self) -> None:
        self.spool.settled = Settled((3,), ())
        self.carrier = self.carrier._replace(until="window")
        self.spool.open = lambda moment: True
        before = call.Call._heed_window

        def closed(made: call.Call) -> None:
            made._closes = clock.running()

        try:
            call.Call._heed_window = closed  # type: ignore[method-assign]
            self.assertEqual([JOB], self.make([JOB, JOB, JOB], BACK))
        finally:
            call.Call._heed_window = before  # type: ignore[method-assign]

    def test_a_carrier_that_cannot_be_run(self) -> None:
        with self.assertRaisesRegex(Failure, "/entry: the carrier cannot be run: no such file") as raised:
            self.make([JOB], Ended(127, b"", b"no such file\n"))
        self.assertEqual((78, ["pack"]), (raised.exception.status, [words[0] for words in self.spool.asked]))

    def test_a_status_of_the_neighbours_shell_is_that_of_a_failed_call(self) -> None:
        """Otherwise no wait would begin, and the neighbour would be called each minute. It isn't if the carrier misses a program here."""
        script, here = self.put("script", "#!/bin/sh\n", 0o755), self.site.session
        cannot = self.put("cannot", "#!/nowhere -x\n", 0o755)
        here.environment["PATH"] = f"{self.folder}/bin"
        for name in "ssh", "command", "taylor":
            self.put(f"lib/uuspool/carriers/{name}", "", 0o755)
        for name, words, fails in (
            ("command", (script,), True), ("command", (cannot,), False), ("command", ("/nowhere",), False), ("ssh", ("host",), False), ("taylor", (), False), ("", (), True),
        ):  # fmt: skip
            program = f"{self.folder}/lib/uuspool/carriers/{name}" if name else script
            carrier = carriers.Carrier("/entry", program, ("duke", *words))
            self.assertEqual([not fails] * 2, [carrier.is_missing(here, "mysite", status) for status in (126, 127)], (name, words))
            self.assertFalse(carrier.is_missing(here, "mysite", 1))
        self.carrier = carriers.Carrier("/entry", script, ("duke",))
        self.failing("sh: not found", "sh:-not-found", [JOB], Ended(127, b"", b"sh: not found\n"))
        self.put("bin/ssh", "", 0o755)
        self.carrier = carriers.Carrier("/entry", f"{self.folder}/lib/uuspool/carriers/ssh", ("duke", "host"))
        for status, why in (126, "host cannot run uuspool-answer"), (127, "host has no uuspool-answer"):
            self.failing(why, why.replace(" ", "-"), [JOB, NOTHING], *[Ended(status, b"", b"bash: no\n")] * 2)

    def test_what_taylor_uucp_brings_is_taken_after_each_call_by_it(self) -> None:
        for name, count in ("uucico", 1), ("taylor", 1), ("ssh", 0), ("folder", 0):
            self.put(f"lib/uuspool/carriers/{name}", "", 0o755)
            self.carrier = self.carrier._replace(program=f"{self.folder}/lib/uuspool/carriers/{name}")
            for ended in Ended(0, b"", b""), Ended(1, b"", b"the line fell"):
                self.site.session.processes = Wire(ended)
                with mock.patch.object(executions, "take_of") as takes:
                    call.Call(self.site, self.order, self.carrier)._carry(b"")
                self.assertEqual([mock.call(self.site, "duke")] * count, takes.call_args_list, name)

    def test_a_call_was_made_though_nobody_takes_what_taylor_uucp_brought(self) -> None:
        self.carrier = self.carrier._replace(program=self.put("lib/uuspool/carriers/uucico", "", 0o755))
        with mock.patch.object(executions, "take_of", side_effect=Failure(75, "cannot write below /x: No space left on device")):
            self.make([JOB, NOTHING], b"")
        self.assertEqual(("done", "duke"), self.spool.asked[-1])

    def test_what_a_bundle_brought_is_taken_back_from_taylor_uucp(self) -> None:
        """The neighbour has both."""
        for notes, settled, count in ((), (3,), 0), (("3.json",), (), 0), (("3.json",), (3,), 1):
            for name in notes:
                self.put(f"taylor/duke/{name}")
            self.spool.settled = Settled(settled, ())
            with mock.patch.object(handover, "take_back") as takes, mock.patch.object(handover, "looked", return_value=None):
                self.make([JOB, NOTHING], BACK)
            self.assertEqual([mock.call(self.site, "duke")] * count, takes.call_args_list, (notes, settled))

    def test_what_taylor_uucp_has_goes_by_bundles_now(self) -> None:
        """Unless it is just sending that, or is gone."""
        self.put("taylor/duke/7.json")
        for its, options in (None, []), (mock.Mock(), []), (mock.Mock(), ["--no-jobs"]):
            if its:
                its.recall.return_value = {7} if options else set()
                its.handed.return_value = [mock.Mock(number=7)]
            with mock.patch.object(handover, "looked", return_value=its) as looked:
                self.spool.asked.clear()
                self.make([JOB, NOTHING], b"")
            self.assertEqual([mock.call(self.site, "duke")], looked.call_args_list)
            self.assertEqual(("pack", *options, "--", "duke"), self.spool.asked[0])
            if its:
                self.assertEqual([mock.call({7})], its.recall.call_args_list)

    def test_no_answer_counts_as_done(self) -> None:
        self.make([JOB], b"")
        self.assertEqual(("done", "duke"), self.spool.asked[-1])

    def test_a_fault_of_this_site_is_said_and_is_not_the_neighbours(self) -> None:
        self.spool.unpacked = Unpacked(0, ("NoSystem",))
        self.make([JOB, NOTHING], BACK)
        self.assertIn("the sys file here has to define mysite", self.site.session.said[0])
        self.assertEqual(("done", "duke"), self.spool.asked[-1])

    def test_no_bundle_of_ours(self) -> None:
        self.spool.bundles = []
        with self.assertRaisesRegex(Failure, "there is no bundle for duke: uuspool: spool: store"):
            self.make([])
        self.site.spool.run = lambda words, given=b"": Ended(1, b"no system\n", b"")
        with self.assertRaisesRegex(Failure, "no system duke is defined at mysite: .*/etc/sys and uuspool-sys define one"):
            self.make([])

    def test_by_night_what_moved_nothing_isnt_carried_again(self) -> None:
        self.order = call.Order("duke", night=True, grade="N")
        self.assertEqual([1, 0], [len(self.make([JOB, NOTHING], BACK)), len(self.make([JOB]))])
        self.assertEqual(0, len(self.make([JOB.replace(b" z ", b" C ")])))  # (another grade is asked for)
        self.assertEqual(1, len(self.make([_offering(1, 2), NOTHING], BACK)))
        self.site.contacts.change("duke", carried=clock.now() - 3700)
        self.assertEqual(1, len(self.make([_offering(1, 2), NOTHING], BACK)))
        self.order = call.Order("duke", night=True, poll=True)
        self.assertEqual(1, len(self.make([_offering(1, 2), NOTHING], BACK)))
        self.assertEqual([], self.site.session.printed)

    def test_by_night_a_neighbour_that_only_brings_jobs_isnt_called_again(self) -> None:
        """What the next bundle says of these is nothing new. If the neighbour takes a job, it is called again."""
        self.order = call.Order("duke", night=True, grade="N")
        self.spool.unpacked = Unpacked(1, ())
        self.assertEqual(2, len(self.make([JOB, JOB], BACK_1, BACK_1)))
        self.assertEqual(0, len(self.make([JOB.replace(b"job", b"has 7 5\njob", 1)])))
        self.spool.settled = Settled((2,), ())
        self.assertEqual([2, 2], [len(self.make([_offering(*numbers), JOB], BACK_1, BACK_1)) for numbers in ((1, 2), (1,))])

    def test_by_night_what_the_neighbour_refused_isnt_carried_again_under_another_number(self) -> None:
        """Only if another job waits in the first bundle, too."""
        self.order = call.Order("duke", night=True, grade="N")
        for again, carried in ((101,), 0), ((102, 103), 1):
            self.spool.parcels = {1: parcel("1 duke ann N 2026-11-28 10:00:00 1 send a b", b"x")}
            self.spool.settled = Settled((), (Refused(1, "Differs"),))
            self.assertEqual(2, len(self.make([JOB, _offering(*again[:1]), _offering(*again)], BACK, BACK)))
            self.assertEqual(carried, len(self.make([_offering(*again), NOTHING], BACK)))

    def test_by_night_a_missing_carrier_is_told_once_a_day(self) -> None:
        for order, told in (call.Order("duke", night=True), "why"), (call.Order("duke", night=True), ""), (call.Order("duke"), "why"):
            self.assertEqual(told, str(call._not_set_up(self.site, order, "why")))

    def test_a_full_disk_ends_no_call_that_was_made(self) -> None:
        os.rmdir(f"{self.folder}/calls")
        self.put("calls")  # (so nothing can be kept)
        self.make([JOB, NOTHING], BACK)
        self.assertEqual(("done", "duke"), self.spool.asked[-1])

    def test_what_the_last_calls_carried_is_kept(self) -> None:
        big = JOB + bytes(20_000)
        for kept in len(big), len(big) // 2 + len(big):
            self.make([big, NOTHING], b"")
            self.assertEqual(kept, self.site.contacts.find("duke").bytes)
        self.make([JOB, NOTHING], b"")
        self.assertEqual(kept, self.site.contacts.find("duke").bytes)
        self.failing("the line fell", "the-line-fell", [big], Ended(1, b"", b"the line fell", read=12_000))
        self.assertEqual(kept // 2 + 12_000, self.site.contacts.find("duke").bytes)


class Forecasts(Folder):
    def setUp(self) -> None:
        super().setUp()
        jobs = [LINE.replace("7 duke ann N", f"{number} {system} ann {grade}").replace(" 5 ", " 90000 ") for number, system, grade in ((1, "duke", "N"), (2, "duke", "C"), (3, "unc", "C"), (4, "duke", "N"))]
        self.spool = StandIn([parcel(line, bytes(90_000)) for line in jobs])
        self.site = site(self.folder, self.spool)
        for name in "ssh", "uucico":
            self.put(f"lib/uuspool/carriers/{name}", "", 0o755)
        self.put("etc/calls/duke", 'carrier = "ssh"\nlimit = 100\n')

    def told(self, **words: object) -> list[str]:
        self.site.session.printed.clear()
        order = call.Order("duke", dry=True, **words)  # type: ignore[arg-type]
        forecast.tell(self.site, "duke", call._to_go(self.site, order))
        return self.site.session.printed

    def test_by_grade(self) -> None:
        rate = "No call has carried enough to say how long this takes."
        self.assertEqual(["duke: 3 jobs, 270 kB would go", "grade C: 1 job, 90 kB", "grade N: 2 jobs, 180 kB", rate], self.told())
        self.assertEqual(["duke: 1 job, 90 kB would go", "grade C: 1 job, 90 kB", rate], self.told(grade="C"))
        self.assertEqual(["duke: 0 jobs, 0 B would go", rate], self.told(poll=True))
        self.assertEqual(["duke: 0 jobs, 0 B would go", rate], self.told(night=True))
        self.spool.dues = [Due("duke", "C")]
        self.assertEqual(["duke: 1 job, 90 kB would go", "grade C: 1 job, 90 kB", rate], self.told(night=True))

    def test_how_long(self) -> None:
        self.site.contacts.change("duke", bytes=300_000, seconds=1000.0, broken=True)
        self.assertEqual(
            [
                "The last call broke, so this one first asks duke which jobs came.",
                "It takes about 15 min at 300 B a second, as the last calls did, and longer if jobs come.",
                "A call may last 1 min 40 s, so this needs 9 calls.",
            ],
            self.told()[3:],
        )
        self.put("etc/calls/duke", 'carrier = "uucico"\nlimit = 100\n')  # (its neighbour can't say which jobs came)
        self.assertTrue(self.told()[3].startswith("It takes about 15 min"))

    def test_nothing_says_how_to_call(self) -> None:
        os.remove(f"{self.folder}/etc/calls/duke")
        with self.assertRaisesRegex(Failure, "no readable file .*/etc/calls/duke says how to call duke") as raised:
            self.told()
        self.assertEqual((78, []), (raised.exception.status, self.site.log))


class Answers(Folder):
    def test_what_a_bundle_brought_is_taken_back_from_taylor_uucp(self) -> None:
        for notes, count in ((), 0), (("3.json",), 1):
            for name in notes:
                self.put(f"taylor/duke/{name}")
            spool = StandIn()
            spool.settled, spool.bundles = Settled((3,), ()), [Ended(0, NOTHING, b"")]
            made = site(self.folder, spool)
            with mock.patch.object(handover, "take_back") as takes, mock.patch.object(answer, "_read", return_value=BACK), mock.patch.object(Mailer, "write_output") as written:
                answer._answer(made.session, made, "duke", [])
            self.assertEqual(([mock.call(made, "duke")] * count, 1), (takes.call_args_list, len(written.call_args_list)))

    def test_its_words_alone_say_who_calls(self) -> None:
        """(Taylor's uuxqt would say it by a variable, and nobody runs that.)"""
        made = site(self.folder, StandIn(), UU_MACHINE="unc", UU_USER="joe")
        with mock.patch.object(answer, "enter", return_value=made), mock.patch.object(answer, "_answer") as answered:
            with self.assertRaisesRegex(Failure, "^usage: ") as raised:
                answer.run(made.session, [])
            self.assertEqual((64, []), (raised.exception.status, answered.call_args_list))
            self.assertEqual(0, answer.run(made.session, ["duke", "phs"]))
        self.assertEqual([("duke", ["phs"])], [it.args[2:] for it in answered.call_args_list])

    def test_mail_for_plain_taylor_is_delivered_here_first(self) -> None:
        """Only what the line of the answer names goes on at once in any case."""
        spool = StandIn()
        made = put_on_the_way(self, spool)
        spool.bundles = [Ended(0, b"ours", b"")]
        with mock.patch.object(answer, "_read", return_value=JOB), mock.patch.object(made.session.processes, "write_output"):
            answer._answer(made.session, made, "duke", ["a"])
        self.assertEqual([("unpack", "duke", "phs", "a"), ("answer", "--", "duke", "phs", "a")], [it for it in spool.asked if it[0] in ("unpack", "answer")])
