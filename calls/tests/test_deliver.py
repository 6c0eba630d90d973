"""Deliveries: commands, tries, and what is due."""
import errno
import json
import os
import time
from functools import partial
from unittest import mock

from uuspool_calls import cli, commands, deliver, executions, records, refuse, works
from uuspool_calls.errors import Delay, Failure, Refusal, SpoolError, Stopped
from uuspool_calls.files import Lock, memory_file
from uuspool_calls.jobs import Job
from uuspool_calls.processes import Child, Children, Program
from uuspool_calls.session import Session
from uuspool_calls.site import Site
from uuspool_calls.spool import Spool

from .standins import LINE, Closing, Folder, StandIn, parcel, site


class Commands(Folder):
    def setUp(self) -> None:
        super().setUp()
        self.path = self.put("etc/commands", "rmail /r\nlp\t/l\t+options\nrnews /n  +no-words\nnews\t/w\t+options\tc\td\n#off /r\nlpr /l c\ta  d\nown /o b")

    def expect(self, why: str, sender: str, name: str, *words: str) -> None:
        with self.assertRaisesRegex(Refusal, why):
            commands.find(self.path, name, "b").expect_allowed("b", sender, words, self.path)

    def test_who_may_run_what(self) -> None:
        self.expect("b has no command sh for neighbours", "a", "sh", "-c", "id")
        self.expect("b has no command #off for neighbours", "a", "#off")
        self.expect("b lets no word of rmail begin with a hyphen: -oQ/tmp", "a", "rmail", "-oQ/tmp")
        self.expect("b lets rnews have no words", "a", "rnews", "/etc/passwd")
        self.expect("b does not let a run news", "a", "news")
        self.expect("b does not let its own users run news", "", "news")
        for sender, name, *words in ("a", "rmail", "joe"), ("a", "lp", "-d"), ("c", "news", "-x"), ("", "lp"), ("", "own"), ("a", "lpr", "x"), ("d", "lpr"):
            commands.find(self.path, name, "b").expect_allowed("b", sender, words, self.path)

    def test_another_user(self) -> None:
        path = self.put("etc/other", "lp /usr/bin/lp user=lp duke\nrmail /r")
        lp, rmail = commands.find(path, "lp", "b"), commands.find(path, "rmail", "b")
        self.assertEqual((["-u", "lp", "--", "/usr/bin/lp", "x"], {"duke"}), (lp.line(["x"])[-5:], lp.users))
        self.assertEqual((["sudo", "-n"], ["/r", "x"]), (lp.line([])[:2], rmail.line(["x"])))

    def test_sudo_lets_nobody_choose_the_environment_of_another_user(self) -> None:
        path = self.put("etc/other", "lp /usr/bin/lp user=lp")
        self.assertFalse([it for it in commands.find(path, "lp", "b").line([]) if "env" in it])
        with open(f"{os.path.dirname(__file__)}/../../man/uuspool-deliver.1", encoding="utf-8") as file:
            page = file.read()
        self.assertEqual((True, False), ("NOPASSWD: PROGRAM" in page, "NOPASSWD:SETENV" in page))

    def test_how_long_a_command_may_work(self) -> None:
        path = self.put("etc/other", "rmail /r limit=10 duke\nrnews /n limit=2 limit=3\nlp /l\nlpr /l limit=x\nlpq /q limit=0\n")
        rmail = commands.find(path, "rmail", "b")
        self.assertEqual((600, 180, 50), tuple(commands.find(path, it, "b").seconds(50, path) for it in ("rmail", "rnews", "lp")))
        self.assertEqual(({"duke"}, ["/r"]), (rmail.users, rmail.line([])))
        for name in "lpr", "lpq":
            with self.assertRaisesRegex(Delay, f"other: {name} has limit=.*, which is no number of minutes"):
                commands.find(path, name, "b").seconds(50, path)

    def test_commands_that_any_neighbour_may_give_options(self) -> None:
        path = self.put("etc/other", "a /a +options\nb /b +options duke\nc /c +no-words\nd /d")
        self.assertEqual(["a"], [it.name for it in commands.read(path) if it.is_open])

    def test_a_file_that_is_missing_delays(self) -> None:
        with self.assertRaisesRegex(Delay, "there is no readable file"):
            commands.find(f"{self.folder}/nowhere", "rmail", "b")


class Records(Folder):
    def test_tries(self) -> None:
        job = parcel().job
        tries = records.Tries.read(self.folder, "w1", job, 1000)
        waits = []
        for _ in range(7):
            tries = tries.after_failure("no", 1000)
            waits.append(tries.next - 1000)
        self.assertEqual([600, 1200, 2400, 4800, 9600, 14400, 14400], waits)
        tries.write(self.folder, 7)
        self.assertEqual(tries, records.Tries.read(self.folder, "w1", job, 5000))
        self.assertEqual(records.Tries(LINE.replace("joe", "eve"), "w1", 0, 0, 5000), records.Tries.read(self.folder, "w1", Job.read(LINE.replace("joe", "eve")), 5000))
        self.assertEqual(7, json.loads(self.bytes_of("7"))["failed"])

    def test_times(self) -> None:
        tries = records.Tries(LINE, "w1", 1, 1600, 1000)
        self.assertEqual([True, False, False], [tries.is_later(now) for now in (1500, 1600, -86400)])
        later = 1000 + 5 * 86400
        self.assertEqual([False, True], [tries._replace(failed=20).is_old(later + it) for it in (0, 1)])
        self.assertFalse(tries._replace(failed=19).is_old(later * 10))  # (a clock that jumped)

    def test_a_first_try_of_a_clock_that_was_ahead(self) -> None:
        """Then as many tries count as there are in 5 days."""
        tries, now, waits = records.Tries(LINE, "w1", 0, 0, int(4e9)), int(1.8e9), []
        while not tries.is_old(now) and len(waits) < 100:
            tries = tries.after_failure("no", now)
            waits.append(tries.next - now)
        self.assertAlmostEqual(records.DAYS * 86400, sum(waits), delta=14400)

    def test_damaged_records(self) -> None:
        for text in "", "x", "{", '{"failed": 1}', "[1]", "\xff", json.dumps({"job": LINE, "failed": "x", "next": 0, "first": 0, "why": ""}):
            self.put("7", text.encode("latin-1"))
            self.assertEqual(0, records.Tries.read(self.folder, "w1", parcel().job, 1500).failed, text)

    def test_a_record_stays_with_its_job(self) -> None:
        """(Another rule of the clock shows another moment. A record of before has no word of a spool.)"""
        tries, shown = records.Tries(LINE, "w1", 3, 1600, 1000, "no", "x"), LINE.replace(" N 2026-11-28 10:", " A 2026-11-28 11:")
        before = {name: value for name, value in tries._asdict().items() if name != "word"}
        for kept, word, line, failed in (
            (tries._asdict(), "w1", LINE, 3), (tries._asdict(), "w1", shown, 3), (tries._asdict(), "w2", shown, 0), (tries._asdict(), "", shown, 0), (before, "w1", LINE, 3), (before, "w1", shown, 0), (before, "w1", LINE.replace(" N ", " A "), 3),
            (tries._asdict(), "w1", shown.replace("joe", "eve"), 0), (tries._asdict(), "w1", shown.replace(" 5 ", " 6 "), 0), *((tries._asdict() | {"job": it}, "w1", LINE, 0) for it in ("x", 7, None)),
        ):  # fmt: skip
            self.put("7", json.dumps(kept))
            read = records.Tries.read(self.folder, word, Job.read(line), 5000)
            self.assertEqual((LINE if failed else line, word, failed, "x" if failed else ""), (read.job, read.word, read.failed, read.came), (kept, word, line))
            self.assertEqual(("10:00:00" if failed else Job.read(line).hour), read.of(Job.read(line)).hour)

    def test_what_is_due(self) -> None:
        jobs = [Job.read(f"{number}{LINE[1:]}") for number in (1, 2, 3)]
        here = site(self.folder, StandIn())
        records.Tries(jobs[0].line, "w1", 1, 900, 0).write(f"{self.folder}/deliver", 1)
        records.Tries(jobs[1].line, "w1", 1, 1900, 0).write(f"{self.folder}/deliver", 2)
        self.assertEqual([3, 1], deliver.due(here, jobs, 1000))

    def test_senders_take_turns(self) -> None:
        users = ["unc!a", "unc!b", "duke!c", "unc!d", "ann", "duke!e"]
        jobs = [Job.read(LINE.replace("7", str(at), 1).replace("ann", user)) for at, user in enumerate(users)]
        self.assertEqual([0, 2, 4, 1, 5, 3], [it.number for it in deliver.by_turns(jobs)])
        jobs = [Job.read(LINE.replace("7", str(at), 1).replace("ann", user)) for at, user in enumerate(["mel", "mel", "a@x", "b@x", "ann"])]
        self.assertEqual([0, 2, 4, 1, 3], [it.number for it in deliver.by_turns(jobs)])


class Brought(Folder):
    """What neighbours brought by Taylor UUCP."""

    def setUp(self) -> None:
        super().setUp()
        self.site = site(self.folder, StandIn())
        self.put("taken/none")

    def take(self, site: Site, neighbour: str) -> None:
        if neighbour == "slow":
            site.session.processes.pause(20)
        self.put(f"taken/{neighbour}")

    def begin(self, names: list[str], at_once: int, seconds: int) -> list[str]:
        """What was taken once these have begun, so many at a time."""
        with Children(self.site.session.processes, at_once) as children:
            patched = mock.patch.multiple(executions, neighbours=lambda site: names, take_of=self.take)
            with patched, mock.patch.object(deliver, "_TAKING", seconds):
                deliver._take_executions(self.site, children)
            taken = sorted(os.listdir(f"{self.folder}/taken"))
            children._end_all()
        return taken

    def test_who_brings_much_delays_no_other(self) -> None:
        self.assertEqual(["a", "b", "c", "none"], self.begin(["a", "slow", "b", "c"], 2, 2))

    def test_a_round_waits_no_longer_for_them(self) -> None:
        begun = time.monotonic()
        self.assertEqual(["none"], self.begin(["slow", "a"], 1, 1))
        self.assertLess(time.monotonic() - begun, 10)
        self.assertEqual(["a", "b", "none"], self.begin(["a", "b"], 1, 10))


class Rounds(Folder):
    def test_a_round_that_is_over_begins_no_more_deliveries(self) -> None:
        here, begun = site(self.folder, StandIn()), []

        def delivery(session: Session, deliverer: deliver.Deliverer, number: int) -> Child:
            begun.append(number)
            return Child(lambda: 0)

        with Lock(f"{self.folder}/deliver/round.lock") as lock:
            for seconds, count in (60, 3), (0, 0):
                begun.clear()
                with mock.patch.multiple(deliver, _ROUND=seconds, _delivery=delivery):
                    ended = deliver._deliver_all(here, deliver.Deliverer(here), [1, 2, 3], lock)
                self.assertEqual(([1, 2, 3][:count], count), (begun, len(ended)))
        self.assertEqual(["3 jobs wait for the next round"], here.session.said)


    def test_a_delivery_that_cannot_begin_ends_no_other(self) -> None:
        """As at a limit of processes. The command of the first would be run again."""
        here = site(self.folder, StandIn())

        def delivery(session: Session, deliverer: deliver.Deliverer, number: int) -> Child:
            if number == 2:
                raise BlockingIOError(errno.EAGAIN, "Resource temporarily unavailable")
            return Child(lambda: time.sleep(0.5) or 3)

        with Lock(f"{self.folder}/deliver/round.lock") as lock, mock.patch.object(deliver, "_delivery", delivery):
            self.assertEqual([(1, 3)], deliver._deliver_all(here, deliver.Deliverer(here), [1, 2, 4], lock))
        self.assertRegex("".join(here.session.said), r"^no process can begin now.*: 2 jobs wait for the next round$")


    def test_a_look_at_what_was_refused_ends_no_delivery(self) -> None:
        """Such as one that waits in vain for another process that refuses jobs."""
        here = site(self.folder, StandIn())
        looks = mock.patch("uuspool_calls.refusals.forget_excess", side_effect=Failure(75, "jobs are being refused by another process"))
        deliveries = mock.patch.multiple(deliver, _delivery=lambda *words: Child(lambda: time.sleep(0.5) or 3), _MARGIN=-50, _AT_A_LOOK=1)
        with Lock(f"{self.folder}/deliver/round.lock") as lock, looks, deliveries:
            self.assertEqual([(1, 3)], deliver._deliver_all(here, deliver.Deliverer(here), [1, 2], lock))
        self.assertEqual(("jobs are being refused by another process", 3), (here.session.said[0], len(here.session.said)))


class Clean(Folder):
    def test_old_records_of_jobs_that_are_gone(self) -> None:
        spool = StandIn([parcel()])
        here = site(self.folder, spool)
        for name in "7", ".7.new", "7.lock", "8", ".8.new", "8.last", "8.lock", "8.works", "9", "keys", "round":
            self.put(f"deliver/{name}")
            os.utime(f"{self.folder}/deliver/{name}", (time.time() - 7200,) * 2)
        self.put("deliver/9")
        deliver._clean(here, [parcel().job])
        self.assertEqual([".7.new", "7", "7.lock", "9", "round"], sorted(os.listdir(f"{self.folder}/deliver")))
        self.assertEqual([("forget", "--", "mysite", "7")], spool.asked)

    def test_a_clock_that_jumps_takes_nothing_from_a_delivery_that_goes_on(self) -> None:
        here = site(self.folder, StandIn())
        with Lock(f"{self.folder}/deliver/8.lock") as lock:
            self.assertTrue(lock.take())
            for name in "8", "8.lock", "8.works":
                self.put(f"deliver/{name}")
                os.utime(f"{self.folder}/deliver/{name}", (time.time() - 7200,) * 2)
            deliver._clean(here, [])
            self.assertEqual(["8", "8.lock", "8.works"], sorted(os.listdir(f"{self.folder}/deliver")))
            self.assertTrue(lock.is_current())
        deliver._clean(here, [])
        self.assertEqual([], os.listdir(f"{self.folder}/deliver"))


class Jumps(Folder):
    def test_a_round_with_a_wrong_clock_removes_nothing(self) -> None:
        here, now, names = site(self.folder, StandIn()), time.time(), ["1", "2", "ab12"]
        for name in names[:2]:
            self.put(f"refused/{name}", b"no\n" + LINE.encode() + b"\nhello")
        self.put("pieces/unc/ab12/0", b"x")
        for name in "refused/1", "pieces/unc/ab12":  # (written while the clock was behind)
            os.utime(f"{self.folder}/{name}", (1, 1))
        for hours in 0, 2, 29 * 24, 31 * 24, 87600, 87602, -87600, 3:
            with mock.patch("time.time", return_value=now + hours * 3600):
                deliver._clean(here, [])
            os.utime(f"{self.folder}/refused/.looked", (now + hours * 3600,) * 2)
            left = [*os.listdir(f"{self.folder}/refused"), *os.listdir(f"{self.folder}/pieces/unc")]
            self.assertEqual(names, sorted(it for it in left if it[0] != "."), hours)


class Works(Folder):
    def test_a_command_whose_beginner_was_killed(self) -> None:
        path = f"{self.folder}/7.works"
        self.assertFalse(works.is_so(path))
        nothing, ready = os.open(os.devnull, os.O_RDWR), f"{self.folder}/ready"
        words = ["sh", "-c", f"touch {ready}; exec sleep 100"]
        child = Program(words, "", dict(os.environ), 100, first=partial(works.note, path)).start((nothing, nothing, nothing))
        os.close(nothing)
        while not os.path.exists(ready):
            time.sleep(0.01)
        self.assertTrue(works.is_so(path))
        child.terminate()
        while works.is_so(path):  # (though nobody has waited for it)
            time.sleep(0.01)
        child.wait()
        self.assertFalse(works.is_so(path))
        works.note(path)
        self.assertTrue(works.is_so(path))
        self.put("7.works", self.bytes_of("7.works").replace(b" ", b" 1", 1))
        self.assertFalse(works.is_so(path))
        for text in b"", b"x", b"1", b"1 ":
            self.put("7.works", text)
            self.assertFalse(works.is_so(path), text)

    def test_what_is_left_of_a_command_is_ended(self) -> None:
        """Both the delivery and `timeout` were killed, so that nothing else would end it."""
        path, ready = f"{self.folder}/7.works", f"{self.folder}/ready"
        nothing = os.open(os.devnull, os.O_RDWR)
        child = Program(["sh", "-c", f"echo $$ >{ready}; sleep 100"], "", dict(os.environ), 100, first=partial(works.note, path)).start((nothing, nothing, nothing))
        os.close(nothing)
        while not (os.path.exists(ready) and self.bytes_of("ready")):
            time.sleep(0.01)
        number = int(self.bytes_of("ready"))
        works.end_left(path)
        self.assertTrue(works.is_so(path))
        child.kill()
        child.wait()
        leader, begun = self.bytes_of("7.works").split(b" ", 1)
        for text in leader + b" x" + begun, leader, b"0 " + begun, b"1 " + begun:
            self.put("other", text)
            works.end_left(f"{self.folder}/other")
        os.kill(number, 0)
        works.end_left(path)
        self.expect_end(number)

    def test_a_job_on_which_a_command_works_waits(self) -> None:
        self.put("etc/commands", "rmail /r\n")
        deliverer = deliver.Deliverer(site(self.folder, StandIn()))
        works.note(f"{self.folder}/deliver/7.works")
        with memory_file(b"x") as content, self.assertRaisesRegex(Delay, "rmail at mysite still works on it"):
            job = Job.read(LINE.replace("duke", "mysite"))
            deliverer._hand_over(deliverer._delivered(job, content), job)


class Ends(Folder):
    """A stop comes while a command ends, or while that is noted. Programs stand for the command and for that of the spool."""

    STOP = "kill -TERM $(ps -o ppid= -p $PPID)"  # comes to the delivery of a command

    def delivered(self, command: str, spool: str = "echo $* >>noted") -> tuple[int, str, str]:
        """The status of a delivery in a session of its own, the words with which the spool was asked, and the tries that are kept."""
        for name, script in ("rmail", command), ("spool", spool):
            self.put(f"bin/{name}", f"#!/bin/sh\ncd {self.folder}\n{script}\n", 0o755)
        self.put("etc/commands", f"rmail {self.folder}/bin/rmail\n")

        def work() -> int:
            os.setsid()
            here = site(self.folder, StandIn([parcel(LINE.replace("duke", "mysite"))]))
            processes = here.session.processes = Closing()
            processes.catch_stops()
            here.spool.done = Spool([f"{self.folder}/bin/spool"], self.folder, dict(os.environ), processes).done  # type: ignore[method-assign]
            return cli.run(here.session, deliver.Deliverer(here).run, ["7"])

        status = Child(work).wait()
        return status, *(self.text(name) for name in ("noted", "deliver/7"))

    def text(self, name: str) -> str:
        return self.bytes_of(name).decode() if os.path.exists(f"{self.folder}/{name}") else ""

    def test_one_that_ended_is_noted_though_all_processes_are_stopped(self) -> None:
        self.assertEqual((75, "done -- mysite 7\n", ""), self.delivered("exit 0", "kill -TERM 0; echo $* >>noted"))

    def test_one_that_ended_well_while_a_stop_came_is_noted(self) -> None:
        self.assertEqual((75, "done -- mysite 7\n", ""), self.delivered(f"trap '' TERM; {self.STOP}; sleep 0.3; exit 0"))

    def test_one_that_a_stop_ended_is_not_noted_and_not_refused(self) -> None:
        for trap in "", "trap 'exit 69' TERM":
            self.assertEqual((75, "", ""), self.delivered(f"{trap}\n{self.STOP}; sleep 100 & wait"))
        self.assertEqual([], os.listdir(f"{self.folder}/refused"))

    def test_one_that_refused_is_refused_though_a_stop_comes_then(self) -> None:
        with mock.patch.object(deliver.Refuser, "refuse", autospec=True) as refuse:
            refuse.side_effect = lambda its, *words: os.kill(os.getpid(), 15) or its._site.session.processes.check() or self.put("refused/it") != ""
            self.assertEqual(75, self.delivered("exit 65")[0])
        self.assertEqual(["it"], os.listdir(f"{self.folder}/refused"))

    def test_its_end_is_noted_beside_the_spool_before_that_is_asked_again(self) -> None:
        status, noted, _ = self.delivered("exit 0", "[ -e asked ] && cp deliver/7 noted && exit; touch asked; kill -KILL $$")
        self.assertEqual((0, "exec rmail joe"), (status, json.loads(noted or "{}").get("came")))

    def test_its_end_is_noted_beside_the_spool_if_no_process_can_be_begun(self) -> None:
        real = os.fork

        def fork() -> int:
            if os.path.exists(f"{self.folder}/came") and not os.path.exists(f"{self.folder}/failed"):
                self.put("failed")
                raise BlockingIOError(errno.EAGAIN, os.strerror(errno.EAGAIN))
            return real()

        with mock.patch("os.fork", fork):
            status, noted, _ = self.delivered("touch came", "cp deliver/7 noted")
        self.assertEqual((0, "exec rmail joe"), (status, json.loads(noted or "{}").get("came")))

    def test_units_stop_no_program_that_notes_an_end(self) -> None:
        top = f"{os.path.dirname(__file__)}/../../examples"
        for name in "night", "expire":
            with open(f"{top}/uuspool-{name}.service", encoding="utf-8") as file:
                self.assertIn("KillMode=mixed\n", file.read().splitlines(keepends=True), name)


class Refused(Folder):
    def test_what_is_being_delivered_is_not_refused(self) -> None:
        spool = StandIn()
        spool.parcels = {number: parcel(LINE.replace("7 duke", f"{number} {system}")) for number, system in ((7, "mysite"), (8, "duke"))}
        its = site(self.folder, spool)
        with its.lock("deliver/7.lock") as mine, its.lock("deliver/8.lock") as other:
            mine.take(), other.take()
            with self.assertRaisesRegex(Failure, "^job 7 is being delivered"):
                refuse._refuse(its, spool.parcels[7], "why")
            self.assertTrue(refuse._refuse(its, spool.parcels[8], "why"))
        its7 = spool.parcels[7]
        self.assertTrue(refuse._refuse(its, its7, "why"))
        spool.parcels.clear()
        with self.assertRaisesRegex(Failure, "^there is no job 7"):
            refuse._refuse(its, its7, "why")

    def test_what_a_command_still_works_on_is_not_refused(self) -> None:
        """(Its delivery was killed, and gave its lock back.)"""
        spool = StandIn([parcel(LINE.replace("duke", "mysite"))])
        its, job = site(self.folder, spool), spool.parcels[7].job
        works.note(f"{self.folder}/deliver/7.works")
        with self.assertRaisesRegex(Failure, "^job 7 cannot be refused now, and waits: rmail at mysite still works on it") as raised:
            refuse._refuse(its, spool.parcels[7], "why")
        self.assertEqual((75, [], [7]), (raised.exception.status, os.listdir(f"{self.folder}/refused"), list(spool.parcels)))
        records.Tries(job.line, "w1", 30, 0, 0).write(f"{self.folder}/deliver", 7)
        deliverer = deliver.Deliverer(its)
        deliverer.note_killed(7, 9)
        self.assertEqual(0, deliverer.deliver(7))  # (which never says that it still works for 5 days, and so is refused)
        self.assertEqual((32, [7]), (records.Tries.read(f"{self.folder}/deliver", "w1", job, 0).failed, list(spool.parcels)))
        self.assertEqual(["mysite ann 7 waits rmail at mysite still works on it, though what began it was ended"] * 2, its.log)
        self.put("deliver/7.works")
        deliverer.note_killed(7, 9)
        self.assertEqual((["7.untold"], []), (os.listdir(f"{self.folder}/refused"), list(spool.parcels)))

    def test_what_a_killed_delivery_left_ends_before_the_job_is_refused(self) -> None:
        spool = StandIn([parcel(LINE.replace("duke", "mysite"))])
        its = site(self.folder, spool)
        path, ready = f"{self.folder}/deliver/7.works", f"{self.folder}/ready"
        nothing = os.open(os.devnull, os.O_RDWR)
        child = Program(["sh", "-c", f"sleep 100 & echo $! >{ready}; wait"], "", dict(os.environ), 100, first=partial(works.note, path)).start((nothing, nothing, nothing))
        os.close(nothing)
        while not (os.path.exists(ready) and self.bytes_of("ready")):
            time.sleep(0.01)
        child.kill()
        child.wait()
        self.assertTrue(refuse._refuse(its, spool.parcels[7], "why"))
        self.expect_end(int(self.bytes_of("ready")))

    def test_what_is_delivered_is_not_refused(self) -> None:
        """(The spool couldn't note that.)"""
        spool = StandIn([parcel(LINE.replace("duke", "mysite"))])
        its, job = site(self.folder, spool), spool.parcels[7].job
        records.Tries(job.line, "w1", 30, 0, 0, came=job.what).write(f"{self.folder}/deliver", 7)
        with self.assertRaisesRegex(Failure, "^job 7 is delivered, and the spool could not note that yet: uuspool-deliver 7 notes it") as raised:
            refuse._refuse(its, spool.parcels[7], "why")
        deliver.Deliverer(its).note_killed(7, 9)
        self.assertEqual((75, [7], []), (raised.exception.status, list(spool.parcels), os.listdir(f"{self.folder}/refused")))
        self.assertEqual(0, deliver.Deliverer(its).deliver(7))
        self.assertEqual((("done", "mysite", "7"), "mysite ann 7 delivered exec rmail joe"), (spool.asked[-1], its.log[-1]))

    def test_what_a_stop_left_refused_is_not_delivered(self) -> None:
        spool = StandIn([parcel(LINE.replace("duke", "mysite"))])
        its = site(self.folder, spool)
        with mock.patch.object(spool, "kill", side_effect=Stopped), self.assertRaises(Stopped):
            refuse._refuse(its, spool.parcels[7], "why")
        spool.fails["kill"] = SpoolError(3, "uuspool: spool: store")
        self.assertEqual((75, [7]), (deliver.Deliverer(its).deliver(7), list(spool.parcels)))
        spool.fails.clear()
        self.assertEqual((0, []), (deliver.Deliverer(its).deliver(7), list(spool.parcels)))
        self.assertEqual(["7.untold"], os.listdir(f"{self.folder}/refused"))


class Senders(Folder):
    def test_senders(self) -> None:
        for user, sender in ("ann", ""), ("a!ann", "a"), ("a!b!ann", "a"):
            job = Job.read(LINE.replace("ann", user))
            self.assertEqual(sender, job.sender)
        self.assertTrue(Job.read(LINE.replace("ann", "a!MAILER-DAEMON")).is_letter)
