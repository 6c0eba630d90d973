"""What becomes of a bundle, of refused jobs and of moves, with a spool of tables."""
import contextlib
import json
import os
import re
import shutil
import signal
import time
from unittest import mock

from uuspool_calls import files, moves, works
from uuspool_calls.errors import Failure, SpoolError, Stopped
from uuspool_calls.exchange import Neighbour, NoBundle, NotTaken, expect_size, finish_begun
from uuspool_calls.jobs import Job, Parcel
from uuspool_calls.letters import Letter, Mailroom, NotSent, at_home
from uuspool_calls.processes import Ended
from uuspool_calls.refusals import Kept, Refuser, forget_excess, forget_old, forget_warnings, has_untold, look, tell, warn
from uuspool_calls.spool import Refused, Settled, Unpacked
from uuspool_calls.wholes import Whole

from .standins import LINE, Folder, Mailer, StandIn, aged, parcel, site

TEXT = b"bundle\nhas 3 5\n"
JOB = b"bundle\njob 1 5 N ann 1 send a b\nx\nend\n"
FILE = f"uuspool-piece {'0' * 64}.3000.1000.m"


class Taking(Folder):
    def setUp(self) -> None:
        super().setUp()
        self.spool = StandIn([parcel()])
        self.site = site(self.folder, self.spool)
        self.neighbour = Neighbour(self.site, "duke", ["unc"])

    def test_settled_before_unpacked(self) -> None:
        self.spool.settled, self.spool.unpacked = Settled((3, 4), ()), Unpacked(2, ("NoSystem", "Differs"))
        taken = self.neighbour.take(TEXT)
        self.assertEqual([("settle", "duke"), ("unpack", "duke", "unc")], self.spool.asked)
        self.assertEqual((True, True, 1), (taken.moves_jobs, taken.makes_room, taken.unpacked.unwanted))
        self.assertEqual("the sys file here has to define mysite, this site's own name, and unc", taken.own_fault)

    def test_mail_for_a_system_that_is_not_defined_is_one_of_this_site(self) -> None:
        """Otherwise each call of the neighbour would fail."""
        answers = [Unpacked(1, ("NoSystem",)), Unpacked(2, ())]
        self.spool.undefined = {"unc"}
        with mock.patch.object(self.spool, "unpack", side_effect=lambda system, onward, text: asked.append(list(onward)) or answers.pop(0)):
            asked: list[list[str]] = []
            taken = self.neighbour.take(TEXT)
        self.assertEqual(([["unc"], []], 2, ""), (asked, taken.unpacked.jobs, taken.own_fault))

    def test_what_moves_is_finished_before_the_neighbour_says_what_it_has(self) -> None:
        """Otherwise it would have some pieces of a file, and another one the rest."""
        lines = [LINE.replace("7", str(number), 1).replace(" 5 ", " 1000 ").replace("rmail", f"{FILE} {at} exec rmail") for number, at in ((3, 0), (4, 1000), (5, 2000))]
        self.spool.parcels = {it.job.number: it for it in (parcel(line, bytes(1000)) for line in lines)}
        [whole] = Whole.all_of(self.spool.waiting("duke"))
        self.spool.fails = {"kill": SpoolError(3, "uuspool: spool: store")}
        self.assertRaises(moves.HalfMoved, moves.move, self.site, whole, "unc", ["rmail", "joe"])
        self.spool.fails, self.spool.asked = {}, []
        self.neighbour.take(TEXT)
        self.assertEqual(["queue", "kill"] * 3 + ["settle", "unpack"], [it[0] for it in self.spool.asked])

    def test_no_move_begins_while_the_neighbour_says_what_it_has(self) -> None:
        with files.Lock(f"{self.folder}/moves/.lock") as lock, mock.patch("uuspool_calls.site._PATIENCE", 0):
            self.assertTrue(lock.take())
            self.assertRaisesRegex(Failure, "jobs of mysite are being moved or refused by another process", self.neighbour.take, TEXT)
            self.assertEqual(("unpack", "duke", "unc"), (self.neighbour.take(b"bundle\nend\n"), self.spool.asked[-1])[1])

    def test_what_answers_a_call(self) -> None:
        ask, job = b"bundle duke mysite - 1 z 8784095817163137413\n", b"job 1 5 N ann 1 send a b\nx\n"
        for text, words in (
            (ask + b"end\n", ("pack", "-gz", "--", "duke")), (ask + job + b"end\n", ("answer", "--", "duke", "unc")),
            (b"bundle sealed", ("answer", "--", "duke", "unc")),
        ):  # fmt: skip
            self.spool.bundles = [Ended(0, b"ours", b"")]
            self.assertEqual((b"ours", words), (self.neighbour.reply(text), self.spool.asked[-1]))
            self.spool.bundles = [Ended(0, b"ours", b"")]
            Neighbour(self.site, "duke", ["unc"], 9000).reply(text)
            self.assertEqual((words[0], "--most=9000", *words[1:]), self.spool.asked[-1])

    def test_a_line_that_would_do_nothing_is_left_out(self) -> None:
        self.assertEqual((), self.neighbour.take(b"bundle\nend\n").settled.done)
        self.assertEqual([("unpack", "duke", "unc")], self.spool.asked)

    def test_a_bundle_without_jobs_is_taken_and_answered_by_one_program(self) -> None:
        self.spool.batch = lambda word, *lines: [b"duke done\n", f"{word}: {lines[0][0][0]} {lines[1][0][0]}".encode()]
        self.assertEqual(b"w1: unpack answer", self.neighbour.take(b"bundle\nend\n", replies=True).reply)
        for text, replies, refused in (b"bundle\nend\n", False, ()), (JOB, True, ()), (TEXT, True, (Refused(9, "Differs"),)):
            self.spool.settled = Settled((), refused)
            self.assertEqual(b"", self.neighbour.take(text, replies).reply)
        self.site.settings = self.site.settings._replace(seals="/seals")
        self.assertEqual(b"", self.neighbour.take(b"bundle\nend\n", replies=True).reply)

    def test_waiting_jobs_are_counted_unless_few_are_known_to_wait(self) -> None:
        """What is known is forgotten while a bundle is taken, so that a stop doesn't leave it."""
        self.site.session.environment["UUSPOOL_MOST_WAITING"] = "2"
        counted: list[str] = []
        self.spool.waiting = lambda system="": counted.append(system) or []  # type: ignore[func-returns-value]
        self.spool.batch = lambda word, *lines: [b"ours", b"duke 1 5 N 2026-11-28 10:00:00\nunc %d 5 N 2026-11-28 10:00:00\n" % more]
        for more, is_answered, counts in (0, True, 0), (1, True, 0), (0, False, 1), (0, True, 1), (0, True, 0):
            counted.clear()
            self.neighbour.take(JOB)
            self.assertEqual((counts, b""), (len(counted), self.bytes_of("calls/duke.waits")))
            if is_answered:
                self.assertEqual(b"ours", self.neighbour.answer(JOB))

    def test_of_a_neighbour_whose_jobs_fill_the_spool_no_more_are_taken_but_it_is_answered(self) -> None:
        self.site.session.environment["UUSPOOL_MOST_WAITING"] = "2"
        self.spool.waiting = lambda system="": [parcel(LINE.replace("ann", "duke!ann")).job] * 2
        self.spool.settled = Settled((3,), ())
        self.assertEqual("", self.neighbour.take(JOB).later)
        self.spool.asked.clear()
        text = b"bundle duke mysite - 1 z 8784095817163137413\nhas 3 5\n" + JOB.partition(b"\n")[2]
        taken = self.neighbour.take(text, replies=True)
        self.assertEqual(("2 jobs of duke wait at mysite, so it takes more later", (3,), 0), (taken.later, taken.settled.done, taken.unpacked.jobs))
        self.spool.bundles = [Ended(0, b"ours", b"")] * 2
        self.assertEqual((b"ours", b"ours"), (self.neighbour.reply(text, is_taken=False), self.neighbour.reply(text)))
        self.assertEqual([("settle", "duke"), ("pack", "-gz", "--", "duke"), ("answer", "--", "duke", "unc")], self.spool.asked)

    def test_what_is_no_bundle(self) -> None:
        for said, why in (
            ("uuspool: bundle: NoBundle", "no bundle came, but: Welcome"),
            ("uuspool: bundle: OtherSender", "another site answers, not duke: Welcome"),
            ("uuspool: bundle: OtherSite", "this bundle of duke is for another site: Welcome"),
            ("uuspool: spool: store", "uuspool: spool: store"),
        ):
            self.spool.fails["settle"] = SpoolError(2, said)
            with self.assertRaisesRegex(NotTaken, why) as raised:
                self.neighbour.take(b"Welcome\n\x1b\nhas ")
            self.assertEqual("bundle: " in said, isinstance(raised.exception, NoBundle))
        with self.assertRaisesRegex(NoBundle, "more than 4273224 bytes came from duke"):
            expect_size("duke", bytes(4_273_225))

    def test_a_job_that_differs_gets_another_number(self) -> None:
        self.spool.settled = Settled((), (Refused(7, "Differs"),))
        taken = self.neighbour.take(TEXT)
        self.assertEqual([("queue", "mysite!7!again", "duke", "rmail", "joe"), ("kill", "7")], self.spool.asked[2:])
        self.assertEqual((1, []), (taken.requeued, taken.faults))
        self.assertEqual(["duke ann 7 requeued as job 101, since duke has another job of this number (Differs)"], self.site.log)

    def test_each_bundle_with_stale_jobs_passes_twice_as_many_numbers(self) -> None:
        passed = []
        for _ in range(4):
            before, number = self.spool.next, max(self.spool.parcels)
            self.spool.settled = Settled((), (Refused(number, "Stale"),))
            self.neighbour.take(TEXT)
            passed.append(self.spool.next - before)
        self.assertEqual([1, 2, 4, 8], passed)

    def test_only_the_first_stale_job_of_a_bundle_passes_more(self) -> None:
        self.neighbour._bundles_with_stale = 3
        self.spool.parcels[8] = parcel(LINE.replace("7 ", "8 ", 1))
        self.spool.settled = Settled((), (Refused(7, "Stale"), Refused(8, "Stale")))
        self.assertEqual(2, self.neighbour.take(TEXT).requeued)
        self.assertEqual(100 + 8 + 1, self.spool.next)

    def stale(self, neighbour: Neighbour) -> tuple[int, list[str]]:
        """How many numbers are gone after a bundle that says Stale for the newest job, and what is said."""
        self.spool.settled = Settled((), (Refused(max(self.spool.parcels), "Stale"),))
        faults = neighbour.take(TEXT).faults
        return self.spool.next - 100, faults

    def test_a_call_has_so_many_new_numbers(self) -> None:
        """However many bundles say Stale."""
        with mock.patch("uuspool_calls.exchange._MOST_NUMBERS", 20):
            neighbour = Neighbour(self.site, "duke", ["unc"])
        found = [self.stale(neighbour) for _ in range(6)]
        said = ["duke refuses job 120 (Stale), and the next call queues it anew"]
        self.assertEqual([(1, []), (3, []), (7, []), (15, []), (20, said), (20, said)], found)

    def test_a_call_that_is_over_queues_nothing_anew(self) -> None:
        answers = iter((False, False, True, True))
        neighbour = Neighbour(self.site, "duke", ["unc"], is_over=lambda: next(answers))
        self.assertEqual([(1, 0), (2, 1), (2, 1)], [(numbers, len(faults)) for numbers, faults in (self.stale(neighbour) for _ in range(3))])

    def test_a_refused_job_that_somebody_removed_is_no_fault(self) -> None:
        self.spool.settled = Settled((), (Refused(9, "Differs"), Refused(9, "TooLarge")))
        self.assertEqual([], self.neighbour.take(TEXT).faults)

    def test_other_refusals(self) -> None:
        self.spool.settled = Settled((), (Refused(7, "TooLarge"), Refused(8, "NumbersOut"), Refused(9, "NoSystem")))
        faults = self.neighbour.take(TEXT).faults
        self.assertEqual(["the spool of duke refuses job 8: NumbersOut", "the sys file of duke has to define duke, its own name"], faults)
        self.assertEqual(b"it is too large for duke", self.bytes_of("refused/7").partition(b"\n")[0])

    def test_many_jobs_that_a_neighbour_refuses_are_one_letter(self) -> None:
        numbers = range(1, 31)
        self.spool.parcels = {it: parcel(LINE.replace("7", str(it), 1)) for it in numbers}
        for reason, is_done in ("TooLarge", False), ("Stale", True):
            self.spool.settled = Settled((), tuple(Refused(it, reason) for it in numbers))
            self.site.session.processes = mailer = Mailer()
            with mock.patch.object(Neighbour, "_was_done", return_value=is_done):
                self.neighbour.take(TEXT)
            self.assertEqual((1, {}), (len(mailer.ran), self.spool.parcels))
            self.spool.parcels = {it: parcel(LINE.replace("7", str(it), 1), b"other") for it in numbers}

    def test_a_job_that_cannot_be_queued_anew(self) -> None:
        self.spool.settled = Settled((), (Refused(7, "Differs"),))
        for step, job in ("queue", 7), ("kill", 7):
            self.spool.fails = {step: SpoolError(3, "uuspool: spool: store")}
            (fault,) = self.neighbour.take(TEXT).faults
            self.assertEqual(f"duke refuses job {job} (Differs), and it cannot be queued anew: uuspool: spool: store", fault)


class Users(Folder):
    def test_who_asked_a_neighbour_is_a_user_here(self) -> None:
        for user, home in ("ann", "ann"), ("duke!ann", "duke!ann"), ("duke!mysite!ann", "ann"), ("duke!mysite!unc!ann", "unc!ann"), ("", ""):
            self.assertEqual(home, at_home(user, "mysite"))


class Refusing(Folder):
    def setUp(self) -> None:
        super().setUp()
        self.spool = StandIn([parcel()])
        self.site = site(self.folder, self.spool, UUSPOOL_SENDMAIL="/mailer")
        self.mailer: Mailer = self.site.session.processes

    def refuse_one(self, its: Parcel, why: str) -> bool:
        """Refuses a job that waits."""
        self.spool.parcels[its.job.number] = its
        return Refuser(self.site).refuse(its, why)

    def refuse(self, **changes: str) -> bool:
        line = LINE
        for old, new in changes.items():
            line = line.replace(old, new)
        is_refused = self.refuse_one(parcel(line), "no such newsgroup")
        self.told = tell(self.site)
        return is_refused

    def test_one_that_is_no_piece_takes_no_list_of_all(self) -> None:
        with mock.patch.object(self.spool, "waiting", side_effect=AssertionError):
            self.assertTrue(self.refuse_one(parcel(LINE), "no"))
            self.spool.show = lambda number: None  # type: ignore[method-assign]  # (It is gone meanwhile.)
            self.assertTrue(Refuser(self.site).refuse(parcel(LINE.replace("7", "8", 1)), "no"))
        self.assertEqual([], [it for it in self.names() if it.startswith("8")])

    def test_kept_told_removed(self) -> None:
        self.assertTrue(self.refuse())
        self.assertEqual(f"no such newsgroup\n{LINE}\nhello".encode(), self.bytes_of("refused/7"))
        ((words, letter),) = self.mailer.ran
        self.assertEqual(["/mailer", "-i", "-f", "<>", "--", "ann"], words)
        self.assertIn(b"Subject: refused: exec rmail joe\nAuto-Submitted: auto-replied\n\n", letter)
        self.assertIn(b"\n    exec rmail joe\n\nno such newsgroup.\n\nIt was queued at mysite on 2026-11-28 at 10:00:00 as job 7. It begins:\n\n> hello\n", letter)
        self.assertEqual([("kill", "7")], self.spool.asked)
        self.assertEqual(["duke ann 7 refused-for-good no such newsgroup"], self.site.log)

    def test_what_goes_or_is_removed_meanwhile_is_not_refused(self) -> None:
        self.spool.parcels.clear()
        self.assertTrue(Refuser(self.site).refuse(parcel(), "no") and Refuser(self.site).refuse_alone(parcel(), "no"))
        with mock.patch.object(self.spool, "kill", return_value=False):
            self.assertTrue(self.refuse_one(parcel(), "no"))
        self.assertEqual((0, [], [".lock"]), (tell(self.site), self.mailer.ran, os.listdir(f"{self.folder}/refused")))

    def test_once(self) -> None:
        self.refuse()
        self.refuse()
        self.assertEqual((1, [".lock", "7"]), (len(self.mailer.ran), sorted(os.listdir(f"{self.folder}/refused"))))

    def test_another_job_of_this_number_is_kept_beside_it(self) -> None:
        self.refuse()
        self.refuse(joe="eve")
        self.assertEqual(2, len(self.mailer.ran))
        self.assertIn(b"eve", self.bytes_of("refused/7.2"))
        self.assertIn(b"joe", self.bytes_of("refused/7"))

    def test_a_pipe_in_the_place_of_what_is_refused_is_not_waited_for(self) -> None:
        """(root may read there, by uuspool-page.)"""
        os.mkfifo(f"{self.folder}/refused/7")
        self.addCleanup(signal.signal, signal.SIGALRM, signal.signal(signal.SIGALRM, signal.default_int_handler))
        signal.alarm(20)
        self.addCleanup(signal.alarm, 0)
        self.assertIsNone(Kept.read(f"{self.folder}/refused/7"))

    def test_files_of_holes_fill_no_memory(self) -> None:
        for path in "refused/7", "calls/duke.waits", "spool.db-word", "deliver/7.works":
            self.put(path, "1")
            os.truncate(f"{self.folder}/{path}", 1 << 42)
        self.assertTrue(self.refuse())
        self.assertEqual(b"no such newsgroup\n", self.bytes_of("refused/7.2")[:18])
        self.assertEqual("", Neighbour(self.site, "duke", [])._looks_for_room())
        self.assertEqual((0, b""), works._named(f"{self.folder}/deliver/7.works"))
        self.assertEqual("1", self.site.word()[:1])

    def test_no_letter_about_a_letter(self) -> None:
        self.assertTrue(self.refuse(ann="a!MAILER-DAEMON"))
        self.assertEqual([], self.mailer.ran)

    def test_a_job_that_cannot_be_refused_waits(self) -> None:
        self.spool.fails["kill"] = SpoolError(3, "uuspool: spool: store")
        self.assertFalse(self.refuse())
        self.assertEqual(["job 7 cannot be refused now, and waits: uuspool: spool: store"] * 2, self.site.session.said)
        self.assertEqual((75, []), (self.told, self.mailer.ran))

    def stop(self, *numbers: int) -> None:
        """A stop comes before one of these jobs is removed."""
        kill = self.spool.kill

        def stopped(job: Job) -> None:
            if job.number in numbers:
                raise Stopped
            kill(job)

        with mock.patch.object(self.spool, "kill", stopped), self.assertRaises(Stopped):
            Refuser(self.site).refuse(self.spool.parcels[7], "no")

    def names(self) -> list[str]:
        return sorted(it for it in os.listdir(f"{self.folder}/refused") if it[0] != ".")

    def test_a_job_is_removed_before_anybody_is_told(self) -> None:
        self.stop(7)
        self.assertEqual(([7], ["7.waiting.untold"]), (list(self.spool.parcels), self.names()))
        self.spool.fails["kill"] = SpoolError(3, "uuspool: spool: store")
        self.assertEqual((75, []), (tell(self.site), self.mailer.ran))
        with self.assertRaisesRegex(Failure, "^nothing goes to duke while a job that is refused cannot be removed"):
            finish_begun(self.site, "duke")
        self.spool.fails.clear()
        self.spool.parcels[7] = parcel(LINE.replace(" N 2026-11-28 10:", " A 2026-11-28 11:"))  # (regraded, by another clock)
        self.assertEqual((0, [], ["7"]), (tell(self.site), list(self.spool.parcels), self.names()))
        self.assertEqual((1, ["duke ann 7 refused-for-good no"]), (len(self.mailer.ran), self.site.log))

    def test_a_call_removes_a_job_before_it_goes(self) -> None:
        self.stop(7)
        self.assertEqual([True, False], [finish_begun(self.site, "duke") for _ in range(2)])
        self.assertEqual(([], ["7.untold"]), (list(self.spool.parcels), self.names()))

    def test_another_job_of_the_number_of_one_that_is_refused_stays(self) -> None:
        self.stop(7)
        self.spool.parcels[7] = parcel(LINE, b"Hello")
        self.assertEqual((0, [7], ["7"]), (tell(self.site), list(self.spool.parcels), self.names()))

    def test_a_stop_leaves_no_piece_of_a_file_that_is_refused(self) -> None:
        lines = [LINE.replace("7", str(at), 1).replace(" 5 ", " 1000 ").replace("rmail joe", f"{FILE} {(at - 7) * 1000} send /x ~/y") for at in (7, 8, 9)]
        parcels = {it.job.number: it for it in (parcel(line, bytes(1000)) for line in lines)}
        for number, left in (7, 3), (8, 2), (9, 1):
            self.spool.parcels = dict(parcels)
            self.stop(number)
            self.assertEqual(left, len(self.spool.parcels))
            self.assertEqual((0, {}), (tell(self.site), self.spool.parcels))
            shutil.rmtree(f"{self.folder}/refused")
            os.mkdir(f"{self.folder}/refused")
        self.spool.parcels = dict(parcels)
        with mock.patch.object(self.spool, "kill", side_effect=Stopped), self.assertRaises(Stopped):
            Refuser(self.site).refuse_alone(self.spool.parcels[7], "no")
        self.assertEqual((0, [8, 9]), (tell(self.site), list(self.spool.parcels)))
        shutil.rmtree(f"{self.folder}/refused")
        self.spool.parcels = dict(parcels)
        self.put("refused/7.waiting.untold", b"no\n" + parcels[7].text)  # (a stop before the second one is kept)
        self.assertEqual((0, {}), (tell(self.site), self.spool.parcels))

    def test_a_letter_that_cannot_be_sent_is_tried_again(self) -> None:
        self.mailer.status = 75
        self.assertTrue(self.refuse())
        self.assertEqual((75, True), (self.told, has_untold(self.site)))
        self.assertEqual(["the user of job 7, which is refused, cannot be told: /mailer takes no letter"], self.site.session.said)
        self.assertEqual(["ann", "postmaster"], [words[-1] for words, _ in self.mailer.ran])
        self.mailer.status = 0
        for passed, asked, told in (300, 2, 75), (700, 3, 0):  # (the mailer isn't asked in each round)
            os.utime(f"{self.folder}/refused/.failed", (time.time() - passed,) * 2)
            self.assertEqual((told, asked, told == 75), (tell(self.site, at_once=False), len(self.mailer.ran), has_untold(self.site)))
        self.assertFalse(os.path.exists(f"{self.folder}/refused/.failed"))
        self.assertRegex(self.site.session.said[1], "^letters about refused jobs wait, .* asked again after 10 minutes$")
        self.assertEqual(2, len(self.site.session.said))

    def test_who_asks_for_a_letter_need_not_wait(self) -> None:
        for status, told in (75, 75), (0, 0):
            self.mailer.status = status
            if told:
                self.refuse()
            self.assertEqual(told, tell(self.site))

    def test_many_refusals_are_one_letter(self) -> None:
        for number in range(1, 61):
            job = parcel(LINE.replace("7", str(number), 1).replace("ann", f"unc!u{number}"))
            self.refuse_one(job, "no such newsgroup")
        self.assertEqual(0, tell(self.site))
        letters = [words for words in self.spool.asked if words[0] == "mail"]
        self.assertEqual([("mail", "--once=mysite!1!refused", "--", "unc!postmaster")], letters)
        self.assertEqual(60, len(os.listdir(f"{self.folder}/refused")) - 1)

    def test_one_letter_counts_the_refusals_of_one_user(self) -> None:
        counts = {"ann": 21, "bob": 30, "eve": 1}
        users = [user for user, count in counts.items() for _ in range(count)]
        for number, user in enumerate(users, 1):
            self.refuse_one(parcel(LINE.replace("7", str(number), 1).replace("ann", user)), f"no room for {user}")
        self.assertEqual(0, tell(self.site))
        letters = {words[-1]: letter.decode() for words, letter in self.mailer.ran}
        self.assertEqual((3, set(counts)), (len(self.mailer.ran), set(letters)))
        for user, count in counts.items():
            letter = letters[user]
            self.assertEqual({user}, set(re.findall(r"no room for (\w+)", letter)))
            if count > 1:
                self.assertIn(f"\nSubject: refused: {count} jobs\n", letter)
                self.assertEqual(count, letter.count("no room for"))

    def test_who_takes_none_of_its_letters_gets_no_more(self) -> None:
        letters, others = ([parcel(LINE.replace("7", str(at), 1).replace("ann", user)) for at in range(first, first + 1000)] for first, user in ((1, "MAILER-DAEMON"), (2000, "ann")))
        bounces = [parcel(LINE.replace("7", str(at), 1).replace("ann", "MAILER-DAEMON")) for at in range(4000, 5000)]  # (of a mailer)
        self.put("refused/.letters-duke.numbers", "".join(f"{it.job.number}\n" for it in letters))
        for waiting, count in (letters, 0), (letters[1:], 1), (letters[1:] + others, 1), (bounces + letters[1:], 1), (bounces + letters, 0):
            self.spool.parcels = {it.job.number: it for it in waiting}
            self.spool.asked.clear()
            self.site.log.clear()
            Mailroom(self.site).send(Letter("x", "x", "x"), parcel(LINE.replace("ann", "duke!ann")).job, b"")
            self.assertEqual((count, 1 - count), (len(self.spool.asked), len(self.site.log)))

    def test_the_numbers_of_letters_that_wait_are_known(self) -> None:
        room, path = Mailroom(self.site), "refused/.letters-duke.numbers"
        for number in 7, 123456:
            with mock.patch.object(self.spool, "ask_once", return_value=f"job {number}\n".encode()):
                room.send(Letter("x", "x", "x"), parcel(LINE.replace("ann", "duke!ann")).job, b"")
        self.assertEqual(b"7\n123456\n", self.bytes_of(path))
        self.put(path, "".join(f"{number}\n" for number in range(20000)))
        room._note("duke", "job 20000\n")
        self.assertEqual((b"20000", True), (self.bytes_of(path).split()[-1], 2000 < len(self.bytes_of(path).split()) < 20000))

    def test_what_a_sender_may_keep_here(self) -> None:
        for number, user in (1, "unc!x"), (2, "unc!x"), (3, "duke!y"), (4, "ann"):
            line = LINE.replace("7", str(number), 1).replace("ann", user).replace(" 5 ", " 700000 ")
            self.refuse_one(parcel(line, b"x" * 700000), "no")
            os.utime(f"{self.folder}/refused/{number}.untold", (number * 86400,) * 2)
        tell(self.site)
        self.site.session.environment |= {"UUSPOOL_REFUSED_DAYS": "40000", "UUSPOOL_REFUSED_MEGABYTES": "1"}
        forget_old(self.site, aged(20000))
        self.assertEqual(4, sum(it[0] != "." for it in os.listdir(f"{self.folder}/refused")))
        forget_excess(self.site)
        kept = sorted(it for it in os.listdir(f"{self.folder}/refused") if it[0] != ".")
        self.assertEqual(["2", "3", "4"], kept)
        self.site.session.environment["UUSPOOL_REFUSED_DAYS"] = "30"
        forget_old(self.site, aged(20000))
        self.assertEqual([".lock"], os.listdir(f"{self.folder}/refused"))

    def test_nothing_goes_before_its_user_was_told(self) -> None:
        for number, user in enumerate(("ann", "ann", "bob", "duke!x", "duke!y"), 1):
            self.refuse_one(parcel(LINE.replace("7", str(number), 1).replace("ann", user)), "no")
            os.utime(f"{self.folder}/refused/{number}.untold", (number * 86400,) * 2)
        self.site.session.environment |= {"UUSPOOL_REFUSED_MEGABYTES": "0"}
        with mock.patch("uuspool_calls.refusals.tell"):
            self.assertFalse(forget_excess(self.site))
        self.assertEqual(5, sum(it.endswith(".untold") for it in os.listdir(f"{self.folder}/refused")))
        self.assertTrue(forget_excess(self.site))
        self.assertEqual(["2", "3", "5"], sorted(it for it in os.listdir(f"{self.folder}/refused") if it[0] != "."))

    def test_all_addresses_of_strangers_have_one_share(self) -> None:
        for number, user in enumerate(("a@x", "ann", "b@x", "c@y", "duke!d@x", "e@x"), 1):
            self.refuse_one(parcel(LINE.replace("7", str(number), 1).replace("ann", user)), "no")
            os.utime(f"{self.folder}/refused/{number}.untold", (number * 86400,) * 2)
        self.site.session.environment |= {"UUSPOOL_REFUSED_MEGABYTES": "0"}
        self.assertTrue(forget_excess(self.site))
        self.assertEqual((["2", "5", "6"], 5), (sorted(it for it in os.listdir(f"{self.folder}/refused") if it[0] != "."), len(self.site.session.processes.ran)))

    def test_when_it_is_looked_how_old_things_are(self) -> None:
        looked = []
        for hours in 0, 0.5, 1.6, 10 * 8766, 10 * 8766 + 0.5, 10 * 8766 + 1.6, 3, 3.5, 4.1, 500:
            with mock.patch("time.time", return_value=1.8e9 + hours * 3600):
                looked.append(look(self.site) is not None)
                moment = (time.time(),) * 2 if looked[-1] else None
            if moment:  # (which the system takes of its own clock)
                os.utime(f"{self.folder}/refused/.looked", moment)
        self.assertEqual([True, False, True, True, False, True, True, False, True, True], looked)

    def test_what_nobody_was_told_about_is_kept_whatever_its_age(self) -> None:
        for number, end in enumerate(("", ".untold", ".file", ".file.untold"), 1):
            self.put(f"refused/{number}{end}")
        forget_old(self.site, aged(1000))
        self.assertEqual(["2.untold", "4.file.untold"], sorted(it for it in os.listdir(f"{self.folder}/refused") if it[0] != "."))

    def test_a_file_is_refused_with_all_its_pieces_in_one_letter_without_bytes(self) -> None:
        lines = [LINE.replace("7", str(at), 1).replace(" 5 ", " 1000 ").replace("rmail joe", f"{FILE} {place} send /x ~/y") for at, place in ((7, 0), (8, 2000), (9, 1000))]
        other = LINE.replace("7", "10", 1).replace("ann", "eve").replace(" 5 ", " 1000 ").replace("rmail joe", f"{FILE} 0 send /x ~/y")
        self.spool.parcels = {it.job.number: it for it in (parcel(line, b"secret" + bytes(994)) for line in (*lines, other))}
        self.assertTrue(Refuser(self.site).refuse(self.spool.parcels[8], "no"))
        self.assertEqual([10], list(self.spool.parcels))
        self.assertEqual(0, tell(self.site))
        [[_, text]] = self.mailer.ran
        self.assertIn(b"A job of yours, 3000 bytes for duke, is refused at mysite:\n\n    send /x ~/y\n\nno.\n", text)
        self.assertNotIn(b"secret", text)
        self.assertIn(b" as job 7.\n", text)
        self.assertEqual(["7", "8", "9"], sorted(it for it in os.listdir(f"{self.folder}/refused") if it[0] != "."))

    def test_jobs_of_one_number_in_two_spools_bring_two_letters(self) -> None:
        for user in "ann", "bea":
            self.refuse_one(parcel(LINE.replace("ann", user)), "no")
        self.assertEqual((0, ["ann", "bea"]), (tell(self.site), sorted(words[-1] for words, _ in self.mailer.ran)))
        for data in b"hello", b"Hello":
            self.refuse_one(parcel(LINE.replace("ann", "eve"), data), "no")
        self.assertEqual((0, 4), (tell(self.site), len(self.mailer.ran)))

    def test_a_neighbours_user_gets_one_letter_under_a_key(self) -> None:
        self.refuse(ann="duke!ann")
        self.assertEqual([("kill", "7"), ("mail", "--once=mysite!7!refused", "--", "duke!ann")], self.spool.asked)
        self.spool.fails["mail"] = SpoolError(1, "refused NoSystem")
        self.refuse(ann="unc!ann", joe="eve")
        self.assertEqual("postmaster", self.mailer.ran[0][0][-1])

    def test_beginnings(self) -> None:
        for data, shown in (b"", b""), (b"a\tb\x1b\n\nc", b"> a\tb?\n> \n> c\n"), (b"x\n" * 30, b"> x\n" * 20):
            line = LINE.replace(" 5 ", f" {len(data)} ")
            text = Letter("refused", "is refused", "why.").text("mysite", Job.read(line), data)
            self.assertEqual(shown, text.partition(b"It begins:\n\n")[2])

    def test_warnings(self) -> None:
        self.assertTrue(warn(self.site, parcel(), 30) and warn(self.site, parcel(), 30))
        self.assertEqual(1, len(self.mailer.ran))
        self.assertIn(b"Subject: still waits: exec rmail joe\n", self.mailer.ran[0][1])
        forget_warnings(self.site, {"7"})
        self.assertEqual(["7.warned"], os.listdir(f"{self.folder}/refused"))
        forget_warnings(self.site, set())
        self.assertEqual([], os.listdir(f"{self.folder}/refused"))

    def test_a_letter_that_nobody_takes(self) -> None:
        self.mailer.status = 1
        with self.assertRaises(NotSent):
            Mailroom(self.site).send(Letter("x", "x", "x"), parcel().job, b"")


def alone(its: Parcel) -> Whole:
    """A job that isn't in pieces."""
    return Whole(its.job, (its.job,))


class Moving(Folder):
    def setUp(self) -> None:
        super().setUp()
        self.spool = StandIn([parcel()])
        self.site = site(self.folder, self.spool)

    def notes(self) -> list[str]:
        return [it for it in os.listdir(f"{self.folder}/moves") if it.isdecimal()]

    def test_a_move(self) -> None:
        moves.move(self.site, alone(parcel()), "unc", ["rmail", "duke!joe"])
        self.assertEqual([("queue", "mysite!7!again", "unc", "rmail", "duke!joe"), ("kill", "7")], self.spool.asked)
        self.assertEqual(([], ["unc ann 101 moved from duke, where it was job 7"]), (self.notes(), self.site.log))

    def test_a_stop_after_each_step_is_finished(self) -> None:
        for step in "queue", "kill":
            self.spool.fails = {step: SpoolError(3, "uuspool: spool: store")}
            with self.assertRaisesRegex(moves.HalfMoved, "it may wait for both duke and unc until the next call"):
                moves.move(self.site, alone(self.spool.parcels[7]), "unc", ["rmail", "joe"])
            self.assertEqual(["7"], self.notes())
            with self.assertRaisesRegex(Failure, "job 7 is half moved: it may wait for both"):
                moves.finish_all(self.site, "duke")
        self.spool.fails = {}
        moves.finish_all(self.site, "phs")
        self.assertEqual(["7"], self.notes())
        moves.finish_all(self.site, "unc")
        self.assertEqual(([], False), (self.notes(), 7 in self.spool.parcels))

    def test_a_refused_move_leaves_the_job(self) -> None:
        self.spool.fails = {"queue": SpoolError(1, "refused NoSystem")}
        with self.assertRaisesRegex(moves.NotMoved, "refused NoSystem"):
            moves.move(self.site, alone(parcel()), "unc", ["rmail", "joe"])
        self.assertEqual(([], True), (self.notes(), 7 in self.spool.parcels))

    def test_a_note_of_an_earlier_spool_moves_no_job(self) -> None:
        self.put("moves/7", json.dumps({"job": f"{'0' * 16} duke ann 5 exec rmail joe", "system": "unc", "words": ["rmail", "joe"]}))
        moves.finish_all(self.site)
        self.assertEqual(([], []), (self.notes(), self.spool.asked))

    def test_a_note_that_a_stop_left(self) -> None:
        self.put("moves/7", json.dumps({"job": "w1 duke ann 5 exec rmail joe", "system": "unc", "words": ["rmail", "duke!joe"]}))
        moves.finish_all(self.site)
        self.assertEqual(("queue", "mysite!7!again", "unc", "rmail", "duke!joe"), self.spool.asked[0])

    def put_pieces(self) -> Whole:
        """Mail in three pieces, between two others of the same words."""
        lines = [LINE.replace("7", str(number), 1).replace(" 5 ", " 1000 ").replace("rmail", f"{FILE} {at} exec rmail") for number, at in ((7, 0), (9, 1000), (8, 2000))]
        self.spool.parcels = {it.job.number: it for it in (parcel(LINE.replace("7", "6", 1)), *(parcel(line, bytes(1000)) for line in lines))}
        [_, whole] = Whole.all_of(self.spool.waiting("duke"))
        return whole

    def left(self, system: str) -> list[str]:
        return [it.what.removeprefix(f"exec {FILE} ") for it in self.spool.waiting(system)]

    def test_a_stop_between_two_pieces_moves_them_all(self) -> None:
        kill = self.spool.kill
        for stops in range(4):
            whole, kills = self.put_pieces(), iter(range(stops))

            def kill_some(job: Job) -> bool:
                if next(kills, None) is None:
                    raise KeyboardInterrupt
                return kill(job)

            with mock.patch.object(self.spool, "kill", kill_some), contextlib.suppress(KeyboardInterrupt):
                moves.move(self.site, whole, "unc", ["rmail", "duke!joe"])
            self.assertEqual(["7"] * (stops < 3), self.notes())
            moves.finish_all(self.site, "duke")
            self.assertEqual(([], ["exec rmail joe"]), (self.notes(), self.left("duke")))
            self.assertEqual({f"{at} exec rmail duke!joe" for at in (0, 1000, 2000)}, set(self.left("unc")))

    def test_a_job_that_its_user_removes_meanwhile_does_not_go(self) -> None:
        queue = self.spool.queue_again

        def queue_and_remove(job: Job, *rest: object) -> str:
            self.spool.parcels.pop(job.number)
            return queue(job, *rest)  # type: ignore[arg-type]

        with mock.patch.object(self.spool, "queue_again", queue_and_remove):
            moves.move(self.site, alone(self.spool.parcels[7]), "unc", ["rmail", "joe"])
        self.assertEqual(([], {}, []), (self.notes(), self.spool.parcels, self.site.log))
        self.spool.parcels = {7: parcel()}
        with mock.patch.object(self.spool, "show", return_value=None):
            moves.move(self.site, alone(parcel()), "unc", ["rmail", "joe"])
        self.assertEqual([7], list(self.spool.parcels))

    def test_pieces_that_their_user_removes_meanwhile_take_the_others_with_them(self) -> None:
        kill = self.spool.kill
        for removed in ([9, 8], [8], [9]):
            whole = self.put_pieces()

            def kill_and_remove(job: Job) -> bool:
                if job.number == 7:
                    for number in removed:
                        self.spool.parcels.pop(number, None)
                return kill(job)

            with mock.patch.object(self.spool, "kill", kill_and_remove):
                moves.move(self.site, whole, "unc", ["rmail", "joe"])
            self.assertEqual(([], ["exec rmail joe"], []), (self.notes(), self.left("duke"), self.left("unc")))

    def test_a_file_that_the_other_system_never_takes_stays_whole_or_half(self) -> None:
        whole = self.put_pieces()
        self.spool.fails = {"queue": SpoolError(1, "refused NoSystem")}
        with self.assertRaisesRegex(moves.NotMoved, "refused NoSystem"):
            moves.move(self.site, whole, "unc", ["rmail", "joe"])
        self.assertEqual(([], 4), (self.notes(), len(self.left("duke"))))
        queue, tried = self.spool.queue_again, []

        def queue_one(job: Job, *rest: object) -> str:
            tried.append(job)
            if len(tried) > 1:
                raise SpoolError(1, "refused NoSystem")
            return queue(job, *rest)  # type: ignore[arg-type]

        self.spool.fails = {}
        with mock.patch.object(self.spool, "queue_again", queue_one), self.assertRaisesRegex(moves.HalfMoved, "both duke and unc"):
            moves.move(self.site, whole, "unc", ["rmail", "joe"])
        moves.finish_all(self.site, "unc")
        self.assertEqual(([], ["exec rmail joe"], 3), (self.notes(), self.left("duke"), len(self.left("unc"))))

    def test_damaged_notes(self) -> None:
        for text in "", "{", '{"job": 1}', '{"job": "w1", "system": "unc", "words": []}', "one line":
            self.put("moves/7", text)
            moves.finish_all(self.site)
        self.assertEqual([], self.spool.asked)
