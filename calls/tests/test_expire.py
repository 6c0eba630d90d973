"""Which jobs are too old, whatever happens to the clock."""
import json
from unittest import mock

from uuspool_calls import cli, clock, expire
from uuspool_calls.jobs import Job
from uuspool_calls.pieces import COMMAND

from .standins import LINE, Folder, Quiet, StandIn, parcel, site

DAY = 86400


class Old(Folder):
    def test_older_jobs(self) -> None:
        here = site(self.folder, StandIn())
        old = LINE.replace("2026", "2001")
        jobs = [Job.read(it) for it in (LINE, f"8{old[1:]}", f"9{old[1:]}".replace("duke", "mysite"))]
        self.assertEqual([jobs[1]], expire.older(here, jobs, 3650))

    def test_a_file_is_as_old_as_its_newest_piece(self) -> None:
        here = site(self.folder, StandIn())
        lines = [LINE.replace("rmail joe", f"{COMMAND} {'0' * 64}.{size}.1000.x {at} send a b") for size in (2000, 2001) for at in (0, 1000)]
        lines = [lines[0].replace("2026", "2001"), *(it.replace("2026", "2001") for it in lines[2:]), lines[1]]
        jobs = [Job.read(f"{number}{line[1:]}") for number, line in enumerate(lines, 1)]
        self.assertEqual([2, 3], [it.number for it in expire.older(here, jobs, 3650)])

    def test_a_clock_that_jumped_makes_no_job_old(self) -> None:
        here = site(self.folder, StandIn())
        hour, day = 3600, 86400
        for now, running, boot, jump in (
            (0, 0, "a", None), (day, day, "a", None), (3 * day, 2 * day, "a", None), (33 * day + hour, 3 * day, "a", 29 * day + hour), (34 * day, 4 * day, "a", None),
            (36 * day + 1, 5 * day, "a", day + 1), (35 * day, 5 * day, "a", -day - 1), (34 * day, 5 * day, "a", None),
            (4 * day, 5 * day, "a", -30 * day), (5 * day, 6 * day, "a", None), (95 * day, 1, "b", None), (186 * day, 1, "c", 91 * day), (100 * day, 1, "d", -86 * day), (101 * day, 1, "e", None),
        ):  # fmt: skip
            with mock.patch.multiple("uuspool_calls.clock", now=lambda: int(2e9) + now, running=lambda: float(running), boot=lambda: boot):
                last = expire._Last.read(here)
                last.write(here)
                self.assertEqual(jump, last.jump, (now, running, boot))

    def test_what_runs_saw(self) -> None:
        """Each year's runs are known, one a day. Older versions kept none, and a record may be damaged."""
        here, seen = site(self.folder, StandIn()), ()
        for at in range(2000):
            last = expire._Last(at * DAY // 4, 0.0, "a", seen, None).with_jobs([Job.read(LINE.replace("7", str(at), 1))])
            seen = last.seen
            self.assertEqual((last.now, at), seen[-1])
        self.assertEqual((400, {DAY}), (len(seen), {after.moment - before.moment for before, after in zip(seen[:-2], seen[1:-1])}))
        last.write(here)
        with mock.patch.multiple("uuspool_calls.clock", now=lambda: last.now + 60, running=lambda: 0.0, boot=lambda: "b"):
            self.assertEqual(seen, expire._Last.read(here).seen)
        for kept in {}, {"seen": 7}, {"seen": [7, [1], [1, "2"], [1.5, 2], [True, 1], None]}:
            self.put("refused/.expired", json.dumps({"now": 1, "running": 1.5, "boot": "x", **kept}))
            self.assertEqual((), expire._Last.read(here).seen)


class Runs(Folder):
    """Each at so many days since the first one, by a clock, and by the machine."""

    def setUp(self) -> None:
        super().setUp()
        self.spool = StandIn()
        self.site = site(self.folder, self.spool)
        self.session: Quiet = self.site.session  # type: ignore[assignment]

    def put_job(self, number: int, day: float, what: str = "rmail joe") -> None:
        """Queues a job while the clock shows this day."""
        shown = clock.shown("UTC0", int(1.8e9 + day * DAY))
        self.spool.parcels[number] = parcel(f"{number} duke ann N {shown} 5 exec {what}")

    def run_it(self, now: float, running: float, *left: int, boot: str = "a", words: tuple[str, ...] = ("30",), jumps: bool = False) -> None:
        """Runs it, and expects what is left."""
        times = {"now": lambda: int(1.8e9 + now * DAY), "running": lambda: float(running * DAY), "boot": lambda: boot}
        with mock.patch.multiple("uuspool_calls.clock", **times), mock.patch("uuspool_calls.expire.enter", return_value=self.site):
            self.assertEqual(75 if jumps else 0, cli.run(self.session, expire.run, words), (now, running))
        self.assertEqual(sorted(left), sorted(self.spool.parcels), (now, running))
        self.assertEqual(jumps, any("the clock jumped by" in it for it in self.session.said))
        self.session.said.clear()

    def test_a_job_of_a_clock_that_was_behind_waits_its_time(self) -> None:
        self.run_it(0, 1)
        self.put_job(1, -40)
        self.put_job(2, -4000)
        self.run_it(1, 2, 1, 2, words=("-w", "7", "30"))
        self.assertEqual([], [words for words, _ in self.site.session.processes.ran])  # type: ignore[attr-defined]
        self.put_job(3, -40)
        self.run_it(1.2, 0.1, 1, 2, 3, boot="b")
        self.run_it(29.9, 28.8, 1, 2, 3, boot="b")
        self.run_it(30.1, 29, 3, boot="b")
        self.run_it(31.3, 30.2, boot="b")

    def test_a_job_of_a_clock_that_was_ahead_is_refused_in_the_end(self) -> None:
        """It is as old as the run that found this, unless it is made young since, or the clock is set."""
        self.run_it(0, 1)
        self.put_job(1, 4000)
        self.put_job(2, 5)
        self.put_job(3, 4000)
        self.run_it(1, 2, 1, 2, 3)
        self.run_it(2, 3, 1, 2, 3, words=("-w", "7", "30"))
        self.put_job(3, 7)
        self.put_job(4, 4000)
        self.run_it(8.1, 9.1, 1, 2, 3, 4)
        self.run_it(408.2, 9.2, 1, 2, 3, 4, jumps=True)
        self.run_it(8.3, 9.3, 1, 2, 3, 4, jumps=True)
        self.run_it(30.9, 31.9, 1, 2, 3, 4)
        self.run_it(31.1, 32.1, 2, 3, 4)
        self.run_it(35.1, 36.1, 3, 4)
        self.run_it(37.1, 38.1, 4)
        self.run_it(38.2, 39.2)

    def test_a_record_of_dates_that_is_damaged(self) -> None:
        for ahead in 7, [1], {"1 2037-01-01 00:00:00": "x", "2": None, "3": True}:
            self.put("refused/.expired", json.dumps({"now": 1, "running": 1.5, "boot": "x", "ahead": ahead}))
            self.assertEqual({}, expire._Last.read(self.site).ahead)

    def test_what_was_there_before_the_first_run_goes_by_its_date(self) -> None:
        for day in -40, -29, 1:
            self.put_job(50 + day, day)
        self.run_it(0, 1, 21, 51)
        self.run_it(1.1, 2.1, 51)

    def test_a_file_is_as_young_as_its_newest_piece(self) -> None:
        pieces = [f"{COMMAND} {'0' * 64}.2000.1000.x {at} send a b" for at in (0, 1000)]
        self.put_job(1, -50, pieces[0])
        with mock.patch.object(expire, "_refuse", return_value=True):
            self.run_it(0, 1, 1)
        self.put_job(2, -40, pieces[1])
        self.run_it(1, 2, 1, 2)
        self.run_it(31, 32)

    def test_a_clock_that_was_set_for_some_days(self) -> None:
        """Each run that sees this says so. The time between the runs counts, whatever the clock says."""
        for year in 365, -365:
            self.put_job(1, 0)
            self.run_it(0.1, 1, 1)
            self.put_job(2, 0.2)
            self.run_it(year + 1, 2, 1, 2, jumps=True)
            self.put_job(3, year + 1)
            left = (2, 3) if year > 0 else (1, 2, 3)  # (the first was there before the first run, and goes by its date)
            self.run_it(year + 2, 3, *left)
            self.run_it(3, 4, *left, jumps=True)
            self.run_it(4, 5, *left)
            self.run_it(29, 30, *left)
            self.run_it(33.5, 34.5, *([3] if year > 0 else []))
            self.spool.parcels.clear()
            self.put("refused/.expired")

    def test_days_that_a_clock_gains_between_starts_of_the_machine(self) -> None:
        self.run_it(0, 1)
        self.put_job(1, -40)
        self.run_it(0.5, 0.1, 1, boot="b")
        self.run_it(100, 0.1, 1, boot="c", jumps=True)
        self.run_it(101, 1.1, 1, boot="c")
        self.run_it(50, 0.1, 1, boot="d", jumps=True)
        self.run_it(52, 0.2, 1, boot="e")
        self.run_it(78, 26.2, 1, boot="e")
        self.run_it(79.5, 27.7, boot="e")
