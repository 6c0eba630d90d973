"""What the page makes of the program's answers, and of what is beside the spool."""
import os
import re
import time

from uuspool_calls import page
from uuspool_calls.errors import Failure
from uuspool_calls.jobs import Job
from uuspool_calls.page.answers import Answers
from uuspool_calls.page.beside import Beside, calls_of, log_of, refused_in
from uuspool_calls.page.times import Clock
from uuspool_calls.page.whole import Page
from uuspool_calls.pieces import About, Piece
from uuspool_calls.wholes import Listed

from .standins import Folder, Quiet

SUM = "0" * 64
NOON = 1795867200  # 2026-11-28 12:00:00 UTC
STATUS = "duke 0 0 never\nunc 0 0 never\n"
SYSTEMS = "system duke\ntime Any\nsystem unc\ntime Any\n"


def line_of(number: int, at: int, size: int = 2500, system: str = "duke", user: str = "ann", to: str = "~/big") -> str:
    """The line of a piece of 1,000 bytes."""
    words = f"exec uuspool-piece {SUM}.{size}.1000.m {at} send /big {to}"
    return f"{number} {system} {user} N 2026-11-28 10:00:00 {min(1000, size - at)} {words}"


def listed(*lines: str) -> list[tuple[int, int, str]]:
    return [(it.job.number, it.job.size, it.what) for it in Listed.all_of([Job.read(line) for line in lines])]


class Lists(Folder):
    def test_a_file_in_pieces_is_one_line(self) -> None:
        letter = "4 duke ann N 2026-11-28 10:00:00 12 send /letter ~/letter"
        found = listed(line_of(3, 0), letter, line_of(5, 1000), line_of(6, 2000))
        self.assertEqual([(3, 2500, "send /big ~/big, 0 bytes have gone"), (4, 12, "send /letter ~/letter")], found)

    def test_what_does_not_wait_of_a_file(self) -> None:
        self.assertEqual([(5, 2500, "send /big ~/big, 1000 bytes have gone")], listed(line_of(5, 1000), line_of(6, 2000)))
        self.assertEqual([(3, 2500, "send /big ~/big, 500 bytes are not here")], listed(line_of(3, 0), line_of(5, 1000)))
        self.assertEqual([(3, 700, "send /big ~/big")], listed(line_of(3, 0, 700)))

    def test_files_of_others_are_others(self) -> None:
        found = listed(line_of(3, 0), line_of(4, 0, system="unc"), line_of(5, 0, user="joe"), line_of(6, 0, to="~/other"))
        self.assertEqual([3, 4, 5, 6], [number for number, *_ in found])


class Pages(Folder):
    def test_a_site_that_cannot_be_found(self) -> None:
        for ended, status in (2, 2), (5, 5), (127, 5):
            self.put("bin/uuspool", f"#!/bin/sh\necho 'uuspool: settings: not toml' >&2\nexit {ended}\n", 0o755)
            with self.assertRaisesRegex(Failure, "^settings: not toml$") as raised:
                page._page(Quiet(self.folder), page._options([]))
            self.assertEqual(status, raised.exception.status)

    def test_what_waits(self) -> None:
        jobs = "\n".join([line_of(3, 0, 7000), line_of(4, 1000, 7000), line_of(5, 6000, 7000), "6 unc joe A 2026-11-28 11:00:00 5 send a ~/a"])
        queues = "duke 3 3000 N 2026-11-28 10:00:00\nunc 1 5 A 2026-11-28 11:00:00\n"
        answers = Answers([SYSTEMS, STATUS, queues, "", jobs], NOON)
        self.assertEqual([("duke", 1, 3000), ("unc", 1, 5)], [(name, it.jobs, it.size) for name, it in answers.queues.items()])
        page = Page("mysite", answers, Clock("UTC0"), NOON, None)  # type: ignore[arg-type]
        self.assertEqual(2, page.sums.jobs)
        shown = page.detail("duke")
        self.assertIn("1 time line, 1 job</small>", shown)
        self.assertIn("send /big ~/big, 4000 bytes have gone", shown)
        self.assertEqual(1, shown.count("/big ~/big"))
        self.assertNotIn("uuspool-piece", shown)

    def test_who_calls_here_is_no_fault(self) -> None:
        jobs = "\n".join(line_of(number, 0, 5, system) for number, system in ((3, "duke"), (4, "unc"), (5, "phs")))
        systems = "system duke\ntime Never\nsystem unc\ntime Never\ntimegrade A Su0000-0001\nsystem phs\n"
        when = "".join(f"{name} N {number} never closed\n" for name, number in (("duke", 3), ("unc", 4), ("phs", 5)))
        queues = "".join(f"{name} 1 5 N 2026-11-28 10:00:00\n" for name in ("duke", "unc", "phs"))
        answers = Answers([systems, f"{STATUS}phs 0 0 never\n", queues, when, jobs], NOON)
        self.put("calls/x")
        beside = Beside(self.folder, f"{self.folder}/log", f"{self.folder}/calls", "mysite", "2026-11-28")
        notices = list(Page("mysite", answers, Clock("UTC0"), NOON, beside).notices())
        self.assertEqual([["unc", "phs"]] * 2, [re.findall("title='?\"?(\\w+)", it) for it in notices], notices)

    def test_what_is_refused(self) -> None:
        for number, at in (3, 0), (4, 1000), (5, 2000):
            self.put(f"refused/{number}", f"too old\n{line_of(number, at)}\nxx")
        self.put("refused/7.untold", "unknown\n7 duke ann N 2026-11-28 10:00:00 2 exec lp\nxx")
        piece = Piece(SUM, 2500, 1000, "m", 0, ("send", "/big", "~/big"))
        self.put("refused/ab12.file/whole", "x")
        About(piece, "unc!joe", job="mysite!9!2026-11-28.10:00:00", why="no room").write(f"{self.folder}/refused/ab12.file")
        found = sorted((user, system, what, why) for _, system, user, what, why in refused_in(f"{self.folder}/refused"))
        big = "send /big ~/big"
        self.assertEqual([("ann", "duke", "exec lp", "unknown"), ("ann", "duke", big, "too old"), ("unc!joe", "mysite", big, "no room")], found)
        self.assertLessEqual({"7", "9"}, {number for number, *_ in refused_in(f"{self.folder}/refused")})

    def test_calls_of_many_systems(self) -> None:
        """The time is in proportion to the lines, however many systems a command of a neighbour wrote into the log."""
        lines = [["2026-11-28", f"12:{it // 30000:02}:00", f"s{it % 30000}", "ann", "-", "done", "done", "x"] for it in range(60000)]
        began = time.process_time()
        found = calls_of(lines, "mysite")
        self.assertLess(time.process_time() - began, 10)
        self.assertEqual((60000, "s29999", "s0"), (len(found), found[0].system, found[-1].system))

    def test_one_call_has_a_line_for_each_job(self) -> None:
        lines = [["2026-11-28", f"12:00:{it:02}", system, "ann", "7", "done", what, "x"] for it, (system, what) in enumerate((("duke", "done"), ("unc", "done"), ("duke", "unpack"), ("duke", "done")))]
        self.assertEqual([("12:00:03", "duke", 2, 1), ("12:00:01", "unc", 1, 0)], [(it.clock, it.system, it.gone, it.came) for it in calls_of(lines, "mysite")])

    def test_an_old_log_with_a_date(self) -> None:
        line = "2026-11-28 {:02}:00:00 duke ann - done done duke\n"
        log = self.put("log", line.format(12))
        for name, hour in ("log-20261127", 9), ("log-20261128", 10), ("log-20261128.gz", 8), ("log-202611289", 8), ("log.1", 11):
            self.put(name, line.format(hour))
        for earlier, hour in ("log.1", "11"), ("log-20261128", "10"), ("log-20261127", "09"):
            self.assertEqual([f"{hour}:00:00", "12:00:00"], [it[1] for it in log_of(log, "2026-11-28")], earlier)
            os.remove(f"{self.folder}/{earlier}")
        self.assertEqual(["12:00:00"], [it[1] for it in log_of(log, "2026-11-28")])

    def test_a_log_with_holes_and_torn_lines(self) -> None:
        line = "2026-11-28 12:00:00 duke ann - done done duke\n"
        log = self.put("log", f"2026-11-28 12:0\0\0 duke ann - done done duke\n2026-11-28 12:00 duke ann - done done\n{line}")
        self.assertEqual([("duke", "done")], [(it.system, it.how) for it in calls_of(log_of(log, "2026-11-28"), "mysite")])
        os.truncate(log, 1 << 40)
        with open(log, "a", encoding="ascii") as file:
            file.write(f"\n{line}")
        self.assertEqual([line.rstrip("\n").split(" ")], log_of(log, "2026-11-28"))
        os.remove(log)
        os.mkfifo(log)
        self.assertEqual([], log_of(log, "2026-11-28"))
