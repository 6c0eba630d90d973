"""What the log says of jobs, where a copy is put back, and what is done with a job that a neighbour had before."""
import collections
import contextlib
import fcntl
import gzip
import itertools
import json
import os
import pwd
import random
import shutil
import stat
import subprocess
from collections.abc import Iterable
from unittest import mock

from uuspool_calls import files, kernel, logged, place, restore, restored, source
from uuspool_calls.copies import Target
from uuspool_calls.errors import Failure, SpoolError
from uuspool_calls.exchange import Neighbour
from uuspool_calls.jobs import Job
from uuspool_calls.pieces import COMMAND, Piece
from uuspool_calls.settings import Settings
from uuspool_calls.spool import Refused, Settled
from uuspool_calls.values import NamedTuple

from .standins import LINE, Folder, Quiet, StandIn, parcel, site

DAY = "2026-11-28"


def line(hour: int, number: int | str, what: str, how: str = "done") -> str:
    """A line of the log."""
    return f"{DAY} {hour:02}:00:00 duke ann {number} {how} {what}\n"


def about(how: str, mark: str, word: str) -> str:
    """A line about a copy."""
    return f"{DAY} 01:00:00 - uucp - {how} {mark} {word} /copies/a\n"


HERE = about("copied", "0a", "w")  # the copy that is put back


class Log(Folder):
    def said(self, mark: str = "0a", jobs: Iterable[int] = range(1, 10), times: Iterable[str] = ()) -> logged.Said:
        return logged.read(f"{self.folder}/log", "", "w", mark, jobs, times)

    def test_which_jobs_are_gone(self) -> None:
        others = line(2, 8, "kill 8", "NoJob") + line(2, 9, "x", "waits") + line(2, "-", "load") + "settle\n\n" + line(2, "1" * 30, "kill") + line(2, "x", "kill")
        self.put("log", HERE + line(1, 3, "send a b") + line(13, 1, "settle") + line(14, 2, "done duke") + line(15, 3, "kill 3") + line(16, 7, "exec x") + others)
        said = self.said()
        self.assertEqual({1: "settle", 2: "done", 3: "kill"}, {number: it.how for number, it in said.gone.items()})
        self.assertEqual((f"{DAY} 15:00:00", 7, []), (said.gone[3].moment, said.greatest, said.faults))

    def test_what_stood_for_a_job_and_is_lost(self) -> None:
        """1 was moved twice, 2 was moved and handed on, 3 was handed on and then moved; 4, 5 and 6 are no such jobs."""

        def anew(number: int, of: int, how: str, user: str = "ann") -> str:
            return line(13, number, f"exec -gC --once=mysite!{of}!{how} -- duke rmail x!{number}").replace("ann", user)

        chains = anew(11, 1, "again") + anew(12, 11, "again") + anew(13, 2, "again") + anew(14, 13, "onward", "unc!joe") + anew(15, 3, "onward") + anew(16, 15, "again")
        others = anew(17, 4, "again") + line(13, 18, "exec -gC -- duke rmail --once=mysite!5!again") + anew(6, 19, "again") + line(13, 20, "exec -gC --once=mysite!6!again")
        gone = "".join(line(14, number, "kill -- x") for number in (1, 11, 2, 13, 3, 15, 4, 17, 5, 6))
        self.put("log", HERE + chains + others + gone)
        said = self.said()

        def words(number: int) -> tuple[str, ...]:
            return ("--as=ann", "exec", "-gC", f"--once=mysite!{ {12: 11, 13: 2}[number] }!again", "--", "duke", "rmail", f"x!{number}")

        lost = [said.lost.get(number) for number in range(1, 8)]
        self.assertEqual([(12, words(12)), (14, words(13)), (16, ()), None, None, None, None], lost)
        said = self.said(jobs=(1, 2, 3, 12, 14))
        self.assertEqual([None, None, (16, ())], [said.lost.get(number) for number in (1, 2, 3)])
        self.put("log", HERE + chains + gone + line(15, 12, "settle"))
        self.assertNotIn(1, self.said().lost)

    def test_a_line_of_many_words_is_one_line(self) -> None:
        """Whoever had the program refuse long words chose where they go on."""
        forged = line(2, 1, "kill 1").rstrip()
        for size in 1 << 16, 1 << 20:
            for before in size, size - 1:
                refused = line(1, 9, "exec x", "TooLarge")
                self.put("log", HERE + f"{refused.rstrip()} ".ljust(before, "x") + forged + " x" * size + "\n" + line(3, 3, "kill 3"))
                self.assertEqual(([3], []), (sorted(self.said().gone), self.said().faults), (size, before))
        with mock.patch.object(logged, "_MOST", len(forged) + 9):
            self.put("log", HERE + "x" * 100 + forged + "\n" + line(3, 3, "")[:9])
            self.assertEqual({}, self.said().gone)

    def test_a_copy_in_which_a_job_is_half_moved(self) -> None:
        """It was made when the job was queued anew, and not yet removed."""
        first, again, ends = about("copied", "0b", "w"), line(2, 5, "send -gN --once=mysite!1!again -- duke a b"), line(3, 1, "kill 1")
        restored = about("restored", "0a", "w")
        for text, gone in (
            (first + again + HERE + ends, [1]),
            (first + again + HERE + ends + line(4, 5, "settle"), [1, 5]),
            (first + again + HERE + ends + restored + ends, [1]),
            (first + again + HERE + ends + restored + ends + line(4, 5, "settle"), [1, 5]),
            (first + HERE + again + ends, [1]),
            (first + HERE + again + restored + ends, [1]),
        ):
            self.put("log", text)
            said = self.said(jobs=(1, 5) if again + HERE in text else (1,))
            lost = [1] if HERE + again + ends in text else []
            self.assertEqual((gone, lost), (sorted(said.gone), sorted(said.lost)), text)

    def test_which_jobs_stood_for_others(self) -> None:
        """Notes of what Taylor has of these are brought over, so that it is taken back."""
        text = HERE + line(2, 5, "send -gN --once=mysite!1!again -- duke a b") + line(3, 6, "send -gN --once=mysite!5!again -- duke a b") + line(3, 7, "send a b")
        self.put("log", line(1, 4, "send -gN --once=mysite!3!again -- duke a b") + text)
        self.assertEqual(({5, 6}, {6}), (self.said(jobs=(1, 2)).others, self.said(jobs=(1, 5)).others))
        self.put("log", text.removeprefix(HERE))
        self.assertEqual(set(), self.said(jobs=(1, 2)).others)

    def test_what_a_restoration_that_put_nothing_back_was_to_queue(self) -> None:
        """Its numbers may be given to other jobs later. Lines with smaller numbers aren't its own."""
        begun = f"{DAY} 01:00:00 - uucp - restoring 0a w t1 1000 from /copies/a\n"
        anew, moved = line(2, 1000, "send -gN --once=mysite!1!again -- duke a b"), line(2, 50, "send -gN --once=mysite!2!again -- duke a b")
        ends = line(3, 1000, "settle") + line(3, 2, "kill 2")
        for text, gone in (HERE + begun + anew + ends, [2]), (HERE + begun + moved + ends, [2]), (HERE + begun + line(2, 9, "send a b") + anew + ends, [1, 2]):
            self.put("log", text)
            said = self.said(jobs=(1, 2))
            self.assertEqual((gone, [2] if moved in text else []), (sorted(said.gone), sorted(said.lost)), text)

    def test_pieces_of_mail_that_came_by_taylor_are_no_job_s(self) -> None:
        """Their mark has the number of a file, and its time."""
        piece = f"exec -gN -- mysite uuspool-piece {'0a' * 32}.9.3.5-1796065232000000000 0 exec rmail x"
        for ends, gone in (line(3, 5, "settle"), [5]), ("", []):
            self.put("log", HERE + line(2, 10, piece).replace("ann", "tay!joe") + line(3, 10, "done mysite x") + ends)
            self.assertEqual((gone, []), (sorted(self.said().gone), sorted(self.said().lost)))

    def test_what_was_handed_on_in_pieces(self) -> None:
        def piece(number: int, of: str, at: int, user: str = "unc!joe") -> str:
            return line(13, number, f"exec -gN -- duke uuspool-piece {'0a' * 32}.9.3.{of}-{DAY}-12:00:00 {at} exec rmail x").replace("ann", user)

        pieces = "".join(piece(10 + at, "1", at) + piece(20 + at, "2", at) + piece(30 + at, "3", at, "ann") for at in (0, 3, 6)) + piece(40, "x", 0)
        gone = "".join(line(14, number, "done mysite x") for number in (1, 2, 3, 10, 13, 20, 23, 26))
        moved = line(15, 17, "exec -gN --once=mysite!16!again -- phs uuspool-piece x") + line(15, 16, "kill -- 16")
        for text, wanted in (pieces + gone, (16, ())), (pieces + gone + moved, (17, ())), (pieces + gone + moved + line(16, 17, "settle"), None):
            self.put("log", HERE + text)
            said = self.said()
            self.assertEqual([wanted, None, None], [said.lost.get(number) for number in (1, 2, 3)])

    def test_pieces_between_which_a_stop_came(self) -> None:
        """1 was handed on in three pieces, 11, 12 and 13. It is done if all of them are, or wait in the copy, or if it was killed."""
        first = about("copied", "0b", "w")
        pieces = [line(13, 11 + at // 3, f"exec -gN -- duke uuspool-piece {'0a' * 32}.9.3.1-{DAY}-12:00:00 {at} exec rmail x").replace("ann", "unc!joe") for at in (0, 3, 6)]
        again, went, done = (f"{it[:20]}duke unc!joe 2{it[33:]}" for it in pieces), [line(14, number, "settle duke") for number in (11, 12, 13)], line(15, 1, "done mysite")
        restored, both = about("restored", "0a", "w"), "".join(pieces[:2])
        for text, jobs, wanted in (
            (HERE + both + went[0] + went[1], (1,), None),
            (HERE + both + went[0] + went[1] + pieces[2] + done, (1,), 13),
            (HERE + both + went[0] + went[1] + pieces[2] + went[2], (1,), 0),
            (HERE + both + went[0] + line(14, 12, "kill") + restored + "".join(again) + went[2].replace(" 13 ", " 23 "), (1,), None),
            (HERE + both + went[0] + line(14, 1, "kill"), (1,), 0),
            (first + both + HERE + pieces[2] + done + went[2], (1, 11, 12), 0),
            (first + both + HERE + pieces[2] + done, (1, 11, 12), 13),
            (first + both + went[0] + HERE + pieces[2] + went[1] + went[2], (1, 12), 0),
            (first + both + pieces[2] + HERE, (1, 11, 12, 13), 0),
            (HERE + both + pieces[2].replace("12:00:00 6", "12:00:01 6") + done + "".join(went), (1,), 1),
        ):
            self.put("log", text)
            said = self.said(jobs=jobs)
            lost = said.lost[1].number if 1 in said.lost else 0 if 1 in said.gone else None
            self.assertEqual(wanted, lost, text)

    def test_a_file_that_came_in_pieces_has_a_mark_of_its_own(self) -> None:
        pieces = "".join(line(13, 11 + at, f"exec -gN -- phs uuspool-piece {'0a' * 32}.2.1.f{at // 2} {at % 2} exec rmail x").replace("ann", "unc!joe") for at in range(3))
        for ends, done in (line(14, 11, "settle"), set()), (line(14, 11, "settle") + line(14, 12, "settle"), {1}):
            self.put("log", HERE + line(12, 1, "done mysite") + pieces + line(14, 2, "done mysite") + ends)
            said = logged.read(f"{self.folder}/log", "", "w", "0a", [1, 2, 3], marks={1: "f0", 2: "f0", 3: "f2"})
            self.assertEqual(({1}, done), (said.handed_on, said.gone.keys() - said.lost.keys()))

    def test_a_piece_of_another_user_says_nothing_of_a_job(self) -> None:
        piece = line(13, 11, f"exec -gN -- phs uuspool-piece {'0a' * 32}.1.1.1-2026-11-28-12:00:00 0 exec rmail x").replace("ann", "evil!x")
        self.put("log", HERE + piece + line(14, 11, "settle phs"))
        for user, gone in ("ann", set()), ("evil!y", set()), ("evil!x", {1}):
            said = logged.read(f"{self.folder}/log", "", "w", "0a", [1, 2], users={1: user})
            self.assertEqual(gone, said.gone.keys() - said.lost.keys())

    def test_a_piece_of_another_user_says_nothing_of_a_piece(self) -> None:
        """1 was handed on as 11 and 12, which are lost. Other pieces name these. (3 was moved, and so is 13.)"""

        def piece(number: int, of: int, at: int, size: int, user: str) -> str:
            return line(13, number, f"exec -gN -- phs uuspool-piece {'0a' * 32}.{size}.1.{of}-{DAY}-12:00:00 {at} exec rmail x").replace("ann", user)

        moved = line(12, 13, "exec -gN --once=mysite!3!again -- phs rmail x").replace("ann", "unc!joe") + line(12, 3, "kill")
        handed_on = "".join(piece(11 + at, 1, at, 2, "unc!joe") for at in (0, 1)) + line(14, 1, "done mysite") + moved
        for user, lost in ("evil!x", {1, 3}), ("unc!joe", set()):
            others = "".join(piece(20 + of, of, 0, 1, user) + line(15, 20 + of, "settle phs") for of in (11, 12, 13))
            self.put("log", HERE + handed_on + others)
            said = logged.read(f"{self.folder}/log", "", "w", "0a", [1, 3], users={1: "unc!joe", 3: "unc!joe"})
            self.assertEqual(lost, said.lost.keys())

    def test_a_piece_that_is_kept_says_nothing_of_its_file(self) -> None:
        """1 and 2 brought pieces of a file. 1 had it handed on, and after a restoration 2 did."""
        first = line(13, 11, "exec -gN --once=mysite!1!onward -- phs rmail joe") + line(14, 1, "done mysite") + line(14, 2, "done mysite")
        second = about("restored", "0a", "w") + line(15, 1, "done mysite") + line(16, 12, "exec -gN --once=mysite!2!onward -- phs rmail joe") + line(16, 2, "done mysite")
        for text, handed_on, done in (first, {1}, set()), (first + second, {1, 2}, set()), (first + second + line(17, 12, "settle phs"), {1, 2}, {2}), (first + line(14, 11, "settle phs") + second, {1, 2}, {1}):
            self.put("log", HERE + text)
            said = logged.read(f"{self.folder}/log", "", "w", "0a", [1, 2, 3], marks={1: "f0", 2: "f0"})
            self.assertEqual((handed_on, done), (said.handed_on, handed_on & said.gone.keys() - said.lost.keys()))
        self.put("log", HERE + line(13, 1, "kill") + line(14, 3, "done mysite"))
        said = logged.read(f"{self.folder}/log", "", "w", "0a", [1, 2, 3], marks={1: "f0", 2: "f0"})
        self.assertEqual(({1, 3}, {}), (said.gone.keys(), said.lost))

    def test_lines_about_other_spools_and_of_before(self) -> None:
        killed = {number: line(2, number, f"kill {number}") for number in range(1, 10)}
        copied, others, restored = about("copied", "0b", "w"), about("copied", "0c", "v"), about("restored", "0a", "w")
        init, renumber = line(1, "-", "init"), line(1, "-", "renumber 99")
        for text, mark, gone in (
            (killed[1] + HERE + killed[2] + copied + killed[3] + others + killed[4] + copied + killed[5], "0a", [2, 3, 5]),
            (killed[1] + HERE + killed[2] + copied + killed[3] + others + killed[4] + copied + killed[5], "0b", [3, 5]),
            (HERE + killed[1] + init + killed[2] + restored + killed[3] + copied + killed[4], "0a", [1, 3, 4]),
            (HERE + killed[1] + init + killed[2] + restored + killed[3] + copied + killed[4], "0b", [4]),
            (init + killed[1] + restored + killed[2], "0a", [2]),
            (HERE + killed[1] + renumber + killed[2] + about("restored", "-", "w") + killed[3], "0a", [1, 3]),
            (killed[1] + about("copied", "0a", "v") + killed[2] + f"{DAY} 01:00:00 - uucp - copied 0a\n" + killed[3], "0a", []),
            (killed[1] + about("restored", "-", "w") + killed[2], "", []),
            (killed[1] + init, "0a", []),
        ):
            self.put("log", text)
            said = self.said(mark)
            self.assertEqual((gone, bool(gone)), (sorted(said.gone), said.has_mark), text)
        self.put("log", killed[9] + HERE + others + killed[7])
        self.assertEqual((9, {}), (self.said().greatest, self.said().gone))

    def test_a_restoration_that_was_killed(self) -> None:
        """What came behind its first line counts if the spool was put back at that time."""
        killed = [line(2, number, f"kill {number}") for number in range(1, 5)]
        init, begun = line(1, "-", "init"), [f"{DAY} 01:00:00 - uucp - restoring 0a {word} {time} from /copies/a\n" for word, time in (("w", "t1"), ("w", "t2"), ("v", "t3"))]
        anew = line(2, 11, "send -gN --once=mysite!1!again -- duke a b")
        for text, times, gone in (
            (init + begun[0] + killed[1], ["t1"], [2]),
            (init + begun[0] + killed[1], [], []),
            (init + begun[0] + killed[1] + begun[1] + killed[2] + about("restored", "0a", "w") + killed[3], ["t2"], [3, 4]),
            (HERE + killed[1] + begun[2] + killed[2], ["t3"], [2]),
            (HERE + killed[1] + begun[2] + killed[2], [], [2, 3]),
            (HERE + init + begun[0] + anew + line(2, 11, "settle"), ["t1"], [1]),
            (HERE + init + begun[0] + anew + line(2, 11, "settle"), [], []),
            (init + f"{DAY} 01:00:00 - uucp - restoring 0a w\n" + killed[1], [""], []),
        ):
            self.put("log", text)
            said = self.said(times=times)
            self.assertEqual(gone, sorted(said.gone), (text, times))

    def test_what_stood_for_a_job_before_a_copy_was_put_back(self) -> None:
        """1 was moved, and waits again then. 2 was moved, and what stood for it is done, so it is. 3 was handed on in pieces, of which one
        waited. What goes later is done, also if another one stood for it before."""
        moved = "".join(line(2, 10 + number, f"send -gN --once=mysite!{number}!again -- duke a b") for number in (1, 2))
        piece = line(2, 13, f"exec -gN -- duke uuspool-piece {'0a' * 32}.9.3.3-{DAY}-12:00:00 0 exec rmail x").replace("ann", "unc!joe")
        gone = line(2, 1, "kill 1") + line(2, 2, "kill 2") + line(2, 12, "settle") + line(2, 3, "done mysite x")
        restored, second = about("restored", "0a", "w"), about("copied", "0b", "w")
        for text, mark, wanted in (
            (HERE + moved + piece + gone, "0a", ([1, 2, 3], [1, 3])),
            (HERE + moved + piece + gone + restored + second, "0a", ([1, 2, 3], [1, 3])),
            (HERE + moved + piece + gone + restored + second, "0b", ([], [])),
            (HERE + moved + piece + gone + restored + second + line(3, 1, "settle"), "0a", ([1, 2, 3], [3])),
            (HERE + moved + piece + gone + restored + second + line(3, 1, "settle"), "0b", ([1], [])),
            (HERE + moved + piece + gone + restored + line(3, 3, "done mysite x"), "0a", ([1, 2, 3], [1])),
            (HERE + moved + piece + gone + restored + line(3, 11, "settle"), "0a", ([1, 2, 3], [3])),
            (HERE + moved + piece + gone + restored + line(3, 21, "send -gN --once=mysite!1!again -- phs a b") + line(3, 1, "kill 1"), "0a", ([1, 2, 3], [1, 3])),
            (HERE + moved + piece + gone + restored + line(3, 21, "send -gN --once=mysite!1!again -- phs a b") + line(3, 1, "kill 1") + line(3, 21, "kill 21"), "0a", ([1, 2, 3], [3])),
        ):
            self.put("log", text)
            said = self.said(mark)
            self.assertEqual(wanted, (sorted(said.gone.keys() & {1, 2, 3}), sorted(said.lost)), text)

    def test_files_of_logrotate(self) -> None:
        names = ["log", "log.1", "log.10.gz", "log.2", "log-20261101", "log-20261101-1", "log-20261102.gz", "log.x", "log.1.old", "blog", "log.gz"]
        wanted = ["log-20261101", "log-20261101-1", "log-20261102.gz", "log.10.gz", "log.2", "log.1"]
        self.assertEqual(wanted, [it for it in logged.rotated(names, "log") if it not in ("log", "log.gz")])
        self.put("log.2.gz", gzip.compress((HERE + line(1, 1, "kill 1")).encode()))
        self.put("log.1", line(2, 2, "kill 2"))
        self.put("log", line(3, 3, "kill 3"))
        self.assertEqual(([1, 2, 3], []), (sorted(self.said().gone), self.said().faults))

    def test_what_cannot_be_read(self) -> None:
        self.put("log.3.gz", gzip.compress((HERE + line(1, 1, "kill 1") * 100).encode())[:-9])
        self.put("log.2.gz", "no gzip")
        whole = gzip.compress(os.urandom(1000))
        self.put("log.5.gz", whole[:20] + bytes(reversed(whole[20:])))
        os.mkfifo(f"{self.folder}/log.1")
        os.symlink(self.put("roots", line(1, 9, "kill 9")), f"{self.folder}/log.4")
        said = self.said()
        self.assertEqual([1], sorted(said.gone))
        self.assertEqual(["log.5.gz", "log.4", "log.3.gz", "log.2.gz", "log.1"], [it.partition(":")[0].rpartition("/")[2] for it in said.faults])
        self.assertEqual(1, len(logged.read("/nowhere/log", "", "w", "0a", [1]).faults))

    def test_a_file_of_holes_takes_no_memory(self) -> None:
        self.put("log", "x")
        os.truncate(f"{self.folder}/log", 1 << 42)
        self.put("log.1", HERE + line(1, 1, "kill 1"))
        with mock.patch.object(logged, "_MOST", 1 << 20):
            self.put("log.2.gz", gzip.compress(b"x" * (1 << 22)))
            said = self.said()
        self.assertEqual(([1], ["log.2.gz: has more than 1 MiB, which aren't read"]), (sorted(said.gone), [it.rpartition("/")[2] for it in said.faults]))

    def test_the_owner_opens_it(self) -> None:
        """root's file, to which the spool's user has a link."""
        os.chmod(self.folder, 0o755)
        self.put("roots", line(1, 9, "kill 9"), 0o600)
        self.give(self.put("s/log.1", HERE + line(1, 1, "kill 1")))
        os.symlink(f"{self.folder}/roots", f"{self.folder}/s/log")
        said = logged.read(f"{self.folder}/s/log", pwd.getpwuid(1).pw_name, "w", "0a", [9])
        self.assertEqual(({}, 1), (said.gone, len(said.faults)))


PLACES = range(3)  # of the pieces of a job that is handed on


class Waiting(NamedTuple):
    """A piece that waits: of which job, of which thing, its place, and for which system."""

    of: int
    thing: int
    at: int
    system: str = "phs"

    @property
    def whole(self) -> "Waiting":
        return self._replace(at=0)

    def line(self, key: str) -> str:
        once = f"--once=mysite!{key} " if key else ""
        return f"exec -gN {once}-- {self.system} uuspool-piece 0f.{len(PLACES)}.1.{self.of}-{DAY}-10:00:00 {self.at} exec rmail joe"


class State(NamedTuple):
    """What a copy has: the thing of each job that waits, and what else is in the spool and beside it."""

    jobs: dict[int, int]
    half: dict[int, int]  # jobs that were queued anew, and those for which they stand, which wait, too
    pieces: dict[int, Waiting]
    keys: set[int]  # of jobs of which the last piece was queued
    notes: dict[int, int]  # of which all but the last one were, and how often a copy had been put back then
    begun: set[int]  # of which one was queued


class History:
    """Jobs that are queued, moved, handed on, at once or in pieces between which stops come, done and killed, and copies that are made and put
    back, in any order. Each job has a thing, which it keeps as it moves. The log says what the commands say there."""

    def __init__(self, seed: int, path: str) -> None:
        self.random, self.path = random.Random(seed), path
        self.now = State({}, {}, {}, set(), {}, set())
        self.ended: set[int] = set()  # things that came to a neighbour, or were killed
        self.there: collections.defaultdict[Waiting, set[int]] = collections.defaultdict(set)  # which places came, by their first one
        self.copies: list[tuple[str, State]] = []
        self.next, self.things, self.times = 1, 0, 0
        self.log = [about("copied", "0b", "w")]  # (What came before the first copy says nothing.)

    def step(self) -> None:
        does = self.random.choice(["queue", "queue", "move", "move", "half_move", "finish", "hand_on", "hand_on_in_pieces", "hand_on_in_pieces", "go", "go", "move_pieces", "end", "end", "copy", "put_back"])
        needed = {"put_back": self.copies, "finish": self.now.half, "go": self.now.pieces, "move_pieces": self.movable(), "hand_on_in_pieces": self.unfinished(), "end": self.unfinished()}
        if does in ("queue", "copy") or needed.get(does, self.whole()):
            getattr(self, does)()

    def unfinished(self) -> list[int]:
        """The jobs that wait and aren't half moved."""
        return sorted(self.now.jobs.keys() - self.now.half.keys() - set(self.now.half.values()))

    def whole(self) -> list[int]:
        """Those of them that aren't being handed on."""
        return sorted(set(self.unfinished()) - self.now.begun)

    def movable(self) -> list[int]:
        """The jobs of which all pieces wait, for the system for which they were queued."""
        counts = collections.Counter(it.of for it in self.now.pieces.values() if it.system == "phs")
        return sorted(of for of, count in counts.items() if count == len(PLACES) and of not in self.now.jobs)

    def half_move(self) -> None:
        number = self.random.choice(self.whole())
        self.now.half[self.next] = number
        self.queue(f"send -gN --once=mysite!{number}!again -- duke a b", self.now.jobs[number])

    def finish(self) -> None:
        number = self.now.half.pop(self.random.choice(sorted(self.now.half)))
        self.now.jobs.pop(number)
        self.log.append(line(1, number, "kill"))

    def queue(self, line: str = "send -gN -- duke a b", thing: int | None = None) -> None:
        self.things += thing is None
        self.now.jobs[self.next] = self.things if thing is None else thing
        self.log.append(globals()["line"](1, self.next, line))
        self.next += 1

    def queue_piece(self, piece: Waiting, key: str = "") -> None:
        self.now.pieces[self.next] = piece
        self.log.append(line(1, self.next, piece.line(key)).replace(" ann ", " duke!ann "))
        self.next += 1

    def move(self, how: str = "again", end: str = "kill") -> None:
        number = self.random.choice(self.whole())
        self.queue(f"send -gN --once=mysite!{number}!{how} -- duke a b", self.now.jobs.pop(number))
        self.log.append(line(1, number, end))

    def hand_on(self) -> None:
        self.move("onward", "done mysite")

    def hand_on_in_pieces(self) -> None:
        """As `outgoing.queue` does, until a stop."""
        number = self.random.choice(self.unfinished())
        waiting = {it.at for it in self.now.pieces.values() if (it.of, it.system) == (number, "phs")}
        has_ended, is_last = self.now.notes.get(number) == self.times, False
        for at in PLACES:
            if at in waiting or has_ended and at != PLACES[-1]:
                continue
            is_last = at == PLACES[-1]
            if is_last:
                self.now.notes[number] = self.times
            if not self.random.randrange(4):
                return
            if not (is_last and number in self.now.keys):
                self.queue_piece(Waiting(number, self.now.jobs[number], at), f"{number}!onward" * is_last)
                self.now.begun.add(number)
            self.now.keys.update({number} if is_last else ())
        if self.random.randrange(4):
            self.now.jobs.pop(number)
            self.now.notes.pop(number, None)
            self.log.append(line(1, number, "done mysite"))

    def go(self) -> None:
        """A piece comes to a neighbour, or all of a file together, if that has Taylor UUCP alone."""
        its = self.now.pieces[self.random.choice(sorted(self.now.pieces))]
        for number in [number for number, it in self.now.pieces.items() if it == its or it.whole == its.whole and its.system == "tay"]:
            self.there[its.whole].add(self.now.pieces.pop(number).at)
            self.log.append(line(1, number, f"settle {its.system}"))
        self.ended |= {its.thing} if len(self.there[its.whole]) == len(PLACES) else set()

    def move_pieces(self) -> None:
        of = self.random.choice(self.movable())
        for number in [number for number, it in self.now.pieces.items() if it.of == of]:
            self.queue_piece(self.now.pieces.pop(number)._replace(system="tay"), f"{number}!again")
            self.log.append(line(1, number, "kill"))

    def end(self) -> None:
        number = self.random.choice(self.unfinished())
        self.ended.add(self.now.jobs.pop(number))
        self.log.append(line(1, number, self.random.choice(["settle duke", "kill", "done duke"] if number not in self.now.begun else ["kill"])))

    def copy(self) -> None:
        self.copies.append((f"{len(self.copies):04}", State(*(its.copy() for its in self.now))))
        self.log.append(about("copied", self.copies[-1][0], "w"))

    def put_back(self) -> None:
        """Does what `Restoration` does with what the log says."""
        mark, copy = self.random.choice(self.copies)
        with open(self.path, "w", encoding="ascii") as file:
            file.writelines(self.log)
        said = logged.read(self.path, "", "w", mark, copy.jobs.keys() | copy.pieces.keys())
        jobs, pieces = ({number: it for number, it in its.items() if number not in said.gone or number in said.lost and not said.lost[number].line} for its in (copy.jobs, copy.pieces))
        half = {number: of for number, of in copy.half.items() if number in jobs and of in jobs}
        self.now = State(jobs, half, pieces, copy.keys.copy(), self.random.choice((self.now.notes, copy.notes)).copy(), copy.begun.copy())
        for number in said.gone.keys() & said.lost.keys() - jobs.keys() - pieces.keys():
            if number in copy.jobs:
                self.queue(" ".join(said.lost[number].line[1:]), copy.jobs[number])
            else:
                self.queue_piece(copy.pieces[number]._replace(system="tay"), f"{number}!again")
        self.times += 1
        self.log.append(about("restored", mark, "w"))
        for thing in {*copy.jobs.values(), *(it.thing for it in copy.pieces.values())}:
            self.expect(thing)

    def expect(self, thing: int) -> None:
        """It waits once, or its pieces do, but for those that came."""
        waiting = sum(self.now.jobs[number] == thing for number in self.now.jobs.keys() - self.now.half.keys())
        coming: collections.defaultdict[Waiting, set[int]] = collections.defaultdict(set)
        for it in [*self.now.pieces.values(), *(whole._replace(at=at) for whole, its in self.there.items() for at in its)]:
            coming[it.whole] |= {it.at} if it.thing == thing else set()
        wholes = sum(len(its) == len(PLACES) for its in coming.values())
        if waiting + (wholes > 0) != 1 if thing not in self.ended else waiting:
            raise AssertionError(f"{thing} waits {waiting} times, and as {dict(coming)}, after\n{''.join(self.log)}{self.now}")

    def complete(self) -> None:
        """All that waits comes."""
        while self.now.half:
            self.finish()
        things = {*self.now.jobs.values(), *(it.thing for it in self.now.pieces.values())} - self.ended
        while self.now.jobs or self.now.pieces:
            does = self.random.choice([self.go] * bool(self.now.pieces) + [self.hand_on_in_pieces] * bool(self.now.jobs))
            does()
        if things - self.ended:
            raise AssertionError(f"{things - self.ended} never came, after\n{''.join(self.log)}")


class FileState(NamedTuple):
    """What a copy has of a file that came in pieces."""

    arrived: set[int]  # the pieces that the spool knows, or knew
    waiting: dict[int, int]  # those that wait here, by their jobs
    kept: set[int]  # the pieces that are kept
    begun: list[int]  # with which job its delivery began, and how often a copy had been put back when all but the last piece were queued
    came: list[str]  # by which mark it was handed on, once that is noted
    onward: dict[int, tuple[str, int]]  # the pieces that wait for the next site, each with its mark
    keys: set[int]  # of jobs of which the last piece was queued

    def copied(self) -> "FileState":
        return FileState(*(its.copy() for its in self))


class FileHistory:
    """A file that came in two pieces, which are kept, handed on in two, with stops between them, done and killed; copies are made and put back, in
    any order. A piece that came after the copy comes again. The log and the folder of the file say what the commands say there. Before
    the marks were those of files, they had the number of a job."""

    words = {at: f"{COMMAND} {'0' * 64}.2.1.m {at} exec rmail phs!joe" for at in (0, 1)}

    def __init__(self, seed: int, folder: str) -> None:
        self.random, self.folder, self.is_of_before = random.Random(seed), folder, seed % 4 == 0
        self.now = FileState({0}, {1: 0}, set(), [], [], {}, set())
        self.next, self.times = 2, 0
        self.there: set[tuple[str, int]] = set()  # the pieces that the next site has
        self.copies: list[tuple[str, FileState]] = []
        self.log = [about("copied", "0b", "w")]  # (What came before the first copy says nothing.)
        piece = Piece.read(self.words[0].split())
        assert piece
        self.name = piece.name("duke!ann")
        if self.is_of_before:
            self.come()

    def step(self) -> None:
        does = self.random.choice(["come", "deliver", "deliver", "go", "copy", "put_back"])
        if {"come": self.missing(), "deliver": self.now.waiting, "go": self.now.onward, "put_back": self.copies}.get(does, [1]):
            getattr(self, does)()

    def missing(self) -> list[int]:
        """The pieces that the spool never had."""
        return sorted({0, 1} - self.now.arrived)

    def come(self) -> None:
        for at in self.missing():
            self.now.waiting[self.next] = at
            self.now.arrived.add(at)
            self.next += 1

    def deliver(self) -> None:
        number = self.random.choice(sorted(self.now.waiting))
        self.now.kept.add(self.now.waiting[number])
        is_last = not self.now.came and self.now.kept == {0, 1}
        if is_last and not self.hand_on(number):
            return
        self.now.waiting.pop(number)
        self.log.append(line(1, number, "done mysite"))
        self.log.append(line(1, number, "exec rmail phs!joe" if is_last else "piece 1 of 2", "delivered" if is_last else "kept"))

    def hand_on(self, number: int) -> bool:
        """Whether no stop comes meanwhile."""
        if not self.now.begun or self.now.begun[0] not in self.now.waiting:
            self.now.begun[:] = [number, -1]
        begun, noted = self.now.begun
        mark = f"{begun}-{DAY}-10:00:00" if self.is_of_before else self.name
        for at in 0, 1:
            if (mark, at) in self.now.onward.values() or (noted == self.times and not at):
                continue
            self.now.begun[1] = self.times if at else -1
            if not self.random.randrange(4):
                return False
            if not (at and begun in self.now.keys):
                once = at * f"--once=mysite!{begun}!onward "
                self.log.append(line(1, self.next, f"exec -gN {once}-- phs {COMMAND} 0f.2.1.{mark} {at} exec rmail joe").replace(" ann ", " duke!ann "))
                self.now.onward[self.next] = (mark, at)
                self.next += 1
            self.now.keys.update([begun] * at)
        is_noted = self.random.randrange(4) > 0
        self.now.came[:] = [mark] * is_noted
        return is_noted and self.random.randrange(4) > 0

    def go(self) -> None:
        for number in sorted(self.now.onward)[: self.random.randrange(1, 3)]:
            self.there.add(self.now.onward.pop(number))
            self.log.append(line(1, number, "settle phs"))

    def copy(self) -> None:
        self.copies.append((f"{len(self.copies):04}", self.now.copied()))
        self.log.append(about("copied", self.copies[-1][0], "w"))

    def put_back(self) -> None:
        del self.copies[self.random.randrange(len(self.copies)) + 1 :]  # (Those of a past that is given up aren't put back.)
        mark, copy = self.copies[-1][0], self.copies[-1][1].copied()
        with open(f"{self.folder}/log", "w", encoding="ascii") as file:
            file.writelines(self.log)
        os.makedirs(f"{self.folder}/pieces/duke/{self.name}", exist_ok=True)
        with open(f"{self.folder}/pieces/duke/{self.name}/about", "w", encoding="ascii") as file:
            json.dump({"user": "duke!ann", "came": f"mysite!{self.now.begun[0]}!{DAY}.10:00:00" if self.now.came else ""}, file)
        its = restore.Restoration(mock.Mock(), mock.Mock(), "", mock.Mock(path=self.folder), mock.Mock(word="w", mark=mark))
        its._settings = Settings("mysite", "", self.folder, "", f"{self.folder}/log", "UTC0")
        words = {number: f"mysite duke!ann N 2026-11-28 10:00:00 1 exec {self.words[at]}" for number, at in copy.waiting.items()}
        words |= {number: f"phs duke!ann N 2026-11-28 10:00:00 1 exec {COMMAND} {'f' * 64}.2.1.{its_mark} {at} exec rmail joe" for number, (its_mark, at) in copy.onward.items()}
        said = its._said([Job.read(f"{number} {text}") for number, text in sorted(words.items())])
        left = {number for number in words if number not in said.gone or number in said.lost}
        waiting, onward = ({number: it for number, it in jobs.items() if number in left} for jobs in (copy.waiting, copy.onward))
        beside = copy if its._again else self.now
        came = [self.name] if its._finished else beside.came
        self.now = FileState(copy.arrived, waiting, beside.kept, beside.begun, came, onward, copy.keys)
        self.times += 1
        self.log.append(about("restored", mark, "w"))
        self.expect(bool(copy.waiting))

    def expect(self, has_jobs: bool) -> None:
        """It comes once: it is on its way or there under one mark, or its pieces are here, or come again, and aren't known as handed on. (If
        the copy has no job of it, it may come again under its own mark, which the next site knows.)"""
        gone = self.there | set(self.now.onward.values())
        marks = [mark for mark, at in gone if at and (mark, 0) in gone]
        is_here = not self.now.came and (self.now.waiting or self.missing())
        if len(marks) + bool(is_here and (has_jobs or marks != [self.name])) != 1:
            raise AssertionError(f"{vars(self)} after\n{''.join(self.log)}")

    def complete(self) -> None:
        """What is here comes to the next site."""
        while self.now.waiting or self.now.onward or self.missing():
            self.come()
            does = self.random.choice([self.deliver] * bool(self.now.waiting) + [self.go] * bool(self.now.onward))
            does()
        wholes = [mark for mark, at in self.there if at and (mark, 0) in self.there]
        if len(wholes) != 1 or (len(self.there) > 2 and not self.is_of_before):
            raise AssertionError(f"{self.there} came after\n{''.join(self.log)}")


class Histories(Folder):
    def test_a_file_that_came_in_pieces_comes_once(self) -> None:
        for seed in range(400):
            history = FileHistory(seed, self.folder)
            for _ in range(seed % 40):
                history.step()
            history.complete()

    def test_nothing_is_lost_and_nothing_comes_again(self) -> None:
        for seed in range(400):
            history = History(seed, f"{self.folder}/log")
            for _ in range(seed % 60):
                history.step()
            history.complete()


class Handed(Folder):
    def test_what_is_there_of_a_file_that_is_handed_on_again(self) -> None:
        """It has pieces that came after the copy, unless it says that the file was delivered."""
        words = f"{COMMAND} {'0' * 64}.2.1.m 0 exec rmail phs!joe"
        piece = Piece.read(words.split())
        assert piece
        name = piece.name("duke!ann")
        onward = line(13, 11, f"exec -gN -- phs {COMMAND} 0f.2.1.{name} 0 exec rmail joe").replace(" ann ", " duke!ann ")
        self.put("log", HERE + line(12, 1, "done mysite") + line(12, 2, "done mysite") + onward)
        for came, again in ("", set()), ("mysite!2!x", {f"duke/{name}"}), (None, {f"duke/{name}"}):
            if came is None:
                os.remove(f"{self.folder}/pieces/duke/{name}/about")
            else:
                self.put(f"pieces/duke/{name}/about", json.dumps({"user": "duke!ann", "came": came}))
            its = restore.Restoration(mock.Mock(), mock.Mock(), "", mock.Mock(path=self.folder), mock.Mock(word="w", mark="0a"))
            its._settings = Settings("mysite", "", self.folder, "", f"{self.folder}/log", "UTC0")
            said = its._said([Job.read(f"1 mysite duke!ann N 2026-11-28 10:00:00 1 exec {words}")])
            self.assertEqual((again, {1}), (its._again, said.gone.keys() & said.lost.keys()), came)


    def test_a_piece_of_another_user_is_no_part_of_what_is_there(self) -> None:
        """It names 2, with which a file was delivered, or 3 or 4, which Taylor UUCP has or is just getting. If 3 counted as done, it would be
        taken out of Taylor's spool."""
        self.put("pieces/duke/f0/about", json.dumps({"user": "duke!ann", "came": "mysite!2!x"}))
        self.put("taylor/phs/3.json", json.dumps({"job": f"duke!ann {DAY} 10:00:00 1 exec rmail x"}))
        self.put("taylor/unc/begun.json", json.dumps({"numbers": [4], "jobs": [f"duke!ann {DAY} 10:00:00 1 exec rmail x"]}))
        for user, again, gone in ("evil!x", set(), set()), ("duke!ann", {"duke/f0"}, {3, 4}):
            marks = {2: "f0", 3: f"3-{DAY}-12:00:00", 4: f"4-{DAY}-12:00:00"}
            forged = (line(13, 10 + of, f"exec -gN -- phs {COMMAND} 0f.1.1.{mark} 0 exec rmail x").replace(" ann ", f" {user} ") for of, mark in marks.items())
            self.put("log", HERE + "".join(forged) + line(14, 13, "settle") + line(14, 14, "settle"))
            its = restore.Restoration(mock.Mock(), mock.Mock(), "", mock.Mock(path=self.folder), mock.Mock(word="w", mark="0a"))
            its._settings = Settings("mysite", "", self.folder, "", f"{self.folder}/log", "UTC0")
            self.assertEqual((again, gone), (its._handed_on_and_lost(its._files_there()), its._read(its._handed()).gone.keys()))


class Places(Folder):
    def setUp(self) -> None:
        super().setUp()
        self.put("site/spool.db", "before")
        self.put("site/refused/3", "why")
        self.path = f"{self.folder}/site"

    def made(self, its: place.Place) -> Target:
        target = its.begin().folder(place.INNER, its.seen)
        with open(self.put("after", "after"), "rb") as file:
            target.put("spool.db", file.fileno())
        target.sync()
        return target

    def exchange(self, its: place.Place) -> str:
        made = self.made(its)
        before = its.exchange()
        its.put_aside(made, "spool.db")
        return before

    def test_the_folders_are_exchanged(self) -> None:
        with place.Place(self.path, "", "spool.db") as its:
            before = self.exchange(its)
        self.assertEqual((b"after", ["spool.db"]), (self.bytes_of("site/spool.db"), os.listdir(self.path)))
        self.assertEqual(["refused", "spool.db.aside"], sorted(os.listdir(before)))
        self.assertEqual(0o700, stat.S_IMODE(os.stat(os.path.dirname(before)).st_mode))
        self.assertRegex(before, r"/site\.before\.[0-9]{8}T[0-9]{6}Z/spool$")

    def test_a_second_one_in_the_same_second(self) -> None:
        with mock.patch("uuspool_calls.clock.now", return_value=1_800_000_000):
            for _ in range(2):
                with place.Place(self.path, "", "spool.db") as its:
                    self.exchange(its)
        self.assertEqual(2, sum(".before." in it for it in os.listdir(self.folder)))

    def test_what_fails_leaves_nothing(self) -> None:
        with self.assertRaises(KeyError), place.Place(self.path, "", "spool.db") as its:
            self.made(its)
            raise KeyError
        self.assertEqual((["after", "site"], b"before"), (sorted(os.listdir(self.folder)), self.bytes_of("site/spool.db")))

    def test_what_a_killed_run_left_is_removed_unless_it_goes_on(self) -> None:
        self.put("site.restoring/spool/spool.db", "x")
        with place.Place(self.path, "", "spool.db") as its:
            room = its.begin()
            self.assertEqual([], os.listdir(room.handle))
            with place.Place(self.path, "", "spool.db") as other, self.assertRaisesRegex(Failure, "another uuspool-restore works in"):
                other.begin()
        self.put("site/log", "x")
        self.put("site.before.1/spool/old", "x")
        for name in "log", "old":
            os.link(f"{self.path}/log", f"{self.folder}/site.before.1/spool/{name}.2")
        os.link(f"{self.path}/log", f"{self.folder}/site.before.1/spool/log")
        with place.Place(self.path, "", "spool.db") as its:
            its.begin()
        self.assertEqual(["log.2", "old", "old.2"], sorted(os.listdir(f"{self.folder}/site.before.1/spool")))
        os.symlink(self.folder, f"{self.path}.restoring")
        with place.Place(self.path, "", "spool.db") as its, self.assertRaises(OSError):
            its.begin()

    def test_who_works_there(self) -> None:
        with place.Place(self.path, "", "spool.db") as its:
            own = f"process {os.getpid()}"
            its.expect_nobody()
            for how in {"cwd": self.path}, {"cwd": f"{self.path}/refused"}, {"stdin": os.open(f"{self.path}/spool.db", os.O_RDONLY)}:
                with subprocess.Popen(["sleep", "60"], **how) as other:  # type: ignore[call-overload]
                    with self.assertRaisesRegex(Failure, rf"^process {other.pid} \(.*\) has {self.path}"):
                        its.expect_nobody()
                    self.assertFalse([it for it in its.workers() if own in it])
                    other.kill()
            with mock.patch.object(place.os, "readlink", return_value=self.path), subprocess.Popen(["sleep", "60"], cwd="/") as other:
                its.expect_nobody()  # (Its own mount may be at this path.)
                other.kill()
            self.put("site/spool.db-lock")
            lock = os.open(f"{self.path}/spool.db-lock", os.O_RDWR)
            for how, waits in ({"cwd": "/", "stdin": lock}, True), ({"cwd": self.path, "stdin": lock}, os.geteuid() == 0), ({"cwd": f"{self.path}/refused", "stdin": lock}, False):
                with subprocess.Popen(["sleep", "60"], **how) as other:  # type: ignore[call-overload]
                    self.assertEqual(waits, not its.workers(), how)
                    other.kill()
            self.put("site2/x")
            with subprocess.Popen(["sleep", "60"], cwd=f"{self.folder}/site2") as other:
                its.expect_nobody()
                other.kill()

    def test_when_no_folder_takes_its_place(self) -> None:
        def is_within() -> bool:
            with place.Place(self.path, "", "spool.db") as its:
                return its.is_within

        self.assertFalse(is_within())
        with mock.patch.object(place, "_mount_of", side_effect=[b"1", b"2"]):
            self.assertTrue(is_within())
        os.chmod(self.folder, 0o777)
        self.assertTrue(is_within())
        os.chmod(self.folder, 0o755)
        self.give(self.folder)
        self.assertTrue(is_within())

    def test_a_link_in_the_place_of_the_spool(self) -> None:
        """The spool's user has put it there: nothing but its name changes."""
        os.remove(f"{self.path}/spool.db")
        os.symlink(self.put("roots", "root's"), f"{self.path}/spool.db")
        with place.Place(self.path, "", "spool.db") as its:
            before = self.exchange(its)
        self.assertTrue(os.path.islink(f"{before}/spool.db.aside"))
        self.assertEqual(b"root's", self.bytes_of("roots"))


    def test_a_step_behind_the_exchange_that_fails(self) -> None:
        """The copy is put back then, and what follows is done."""
        self.put("site/spool.db-lock")
        step, full = kernel.exchange, OSError(28, "No space left on device")
        for name in "rename", "fsync", "unlink":
            with self.subTest(name), contextlib.ExitStack() as stack:
                its = stack.enter_context(place.Place(self.path, "", "spool.db"))
                restoration = restore.Restoration(Quiet(self.folder), mock.Mock(), "", its, mock.Mock())
                restoration._source.name = "spool.db"

                def exchange(*words: object) -> None:
                    step(*words)  # type: ignore[arg-type]
                    stack.enter_context(mock.patch.object(os, name, side_effect=full))

                made = self.made(its)
                with mock.patch.object(kernel, "exchange", exchange):
                    before = restoration._exchange(made)
                why = f"the copy is put back, but a step behind that failed in {before}, where the spool that was there is (No space left on device): run this again"
                self.assertEqual(([why], b"after"), (restoration.faults, self.bytes_of("site/spool.db")))


class Names(Folder):
    """A folder in which what is made takes the place name by name."""

    def setUp(self) -> None:
        super().setUp()
        self.path = f"{self.folder}/site"
        for name in "spool.db", "spool.db-wal", "spool.db-word", "spool.db-journal", "calls/duke", "refused/3", "spool.db-lock", "uuspool.toml", "notes/x":
            self.put(f"site/{name}", "before")
        os.symlink("/log", f"{self.path}/log")
        for name in "spool.db", "spool.db-wal", "spool.db-word", "restored", "calls/duke", "refused/3", "refused/4":
            self.put(f"after/{name}", "after")

    def entered(self, is_within: bool, owner: str = "") -> place.Place:
        """A mount point, or a folder on a file system that can't exchange folders."""
        with mock.patch.object(place, "_mount_of", side_effect=[b"1", b"2"] if is_within else [b"1"] * 2):
            return place.Place(self.path, owner, "spool.db")

    def put_back(self, its: place.Place) -> str:
        made = its.begin().folder(place.INNER, its.seen)
        with restore.Copier() as copier:
            copier.take(f"{self.folder}/after", made)
            copier.finish()
        made.like = its.seen
        made.sync()
        restoration = restore.Restoration(Quiet(self.folder), mock.Mock(), "", its, mock.Mock())
        restoration._source.name = "spool.db"
        with mock.patch.object(kernel, "exchange", side_effect=OSError(22, "Invalid argument")):
            return restoration._exchange(made)

    def killed(self, is_within: bool, function: str, step: int) -> bool:
        """Whether a process that is killed before such a step of it ended so."""
        if not (process := os.fork()):
            do = getattr(os, function)

            def step_or_end(*words: object, **named: object) -> object:
                nonlocal step
                step -= 1
                return do(*words, **named) if step else os._exit(9)

            with mock.patch.object(os, function, step_or_end), self.entered(is_within) as its:
                self.put_back(its)
            os._exit(0)
        return os.waitstatus_to_exitcode(os.waitpid(process, 0)[1]) == 9

    def all(self, folder: str) -> dict[str, bytes]:
        """The files below a folder, but those of a folder that was there before."""
        paths = [f"{top}/{name}" for top, _, names in os.walk(folder) for name in names if ".before." not in top and ".restoring" not in top]
        return {os.path.relpath(it, folder): b"link" if os.path.islink(it) else self.bytes_of(os.path.relpath(it, self.folder)) for it in paths}

    def expect_after(self, is_within: bool, old: str) -> None:
        after = {name: b"after" for name in self.all(f"{self.folder}/after")}
        stays = {"log": b"link", **dict.fromkeys(("spool.db-lock", "uuspool.toml", "notes/x"), b"before")}
        self.assertEqual({**after, **stays}, self.all(self.path))
        self.assertEqual({1}, {os.stat(f"{self.path}/{it}").st_nlink for it in ("spool.db-lock", "uuspool.toml")})
        self.assertEqual(0o700, stat.S_IMODE(os.stat(os.path.dirname(old)).st_mode))
        self.assertRegex(old, r"/site/site\.before\.[0-9TZ]+/old$" if is_within else r"/[^/]*/site\.before\.[0-9TZ]+/old$")
        there = [it for it in os.listdir(old) if not it.startswith(".")]
        self.assertEqual(["calls", "refused", "spool.db", "spool.db-journal", "spool.db-wal", "spool.db-word"], sorted(there))
        self.assertEqual(b"before", self.bytes_of(os.path.relpath(f"{old}/spool.db", self.folder)))

    def test_what_is_there_is_exchanged(self) -> None:
        for is_within in True, False:
            with self.subTest(is_within), self.entered(is_within) as its:
                self.expect_after(is_within, self.put_back(its))
            shutil.rmtree(self.folder)
            self.setUp()

    def test_wherever_it_is_killed(self) -> None:
        """The site has the old spool, the new one, or none, until the next run finishes what it began. Nothing beside it is lost."""
        for is_within, function in itertools.product((True, False), ("rename", "mkdir")):
            found, step = set(), 0
            while self.killed(is_within, function, step := step + 1):
                spool = self.bytes_of("site/spool.db") if os.path.exists(f"{self.path}/spool.db") else b""
                found.add(spool)
                with self.subTest((is_within, function, step)), self.entered(is_within) as its:
                    if not spool:
                        self.put("site/calls/phs", "a call that failed meanwhile")
                    its.begin()
                    expected = {"before": b"before"}.get(spool.decode(), b"after")
                    self.assertEqual([expected] * 3, [self.bytes_of(f"site/{it}") for it in ("spool.db", "calls/duke", "refused/3")])
                    self.assertEqual(expected == b"after", os.path.exists(f"{self.path}/restored"))
                shutil.rmtree(self.folder)
                self.setUp()
            self.assertTrue(function != "rename" or found == {b"before", b"", b"after"}, found)

    def test_a_step_that_fails_is_undone(self) -> None:
        before = self.all(self.path)
        for is_within in True, False:
            for step in range(1, 100):
                left, do, full = step, os.rename, OSError(28, "No space left on device")

                def rename(*words: object, **named: object) -> None:
                    nonlocal left
                    left -= 1
                    if not left:
                        raise full
                    do(*words, **named)  # type: ignore[arg-type]

                with self.subTest((is_within, step)), self.entered(is_within) as its, mock.patch.object(os, "rename", rename):
                    try:
                        self.put_back(its)
                        break
                    except OSError:
                        pass
                self.assertEqual(before, self.all(self.path))
            self.assertGreater(step, 10)
            shutil.rmtree(self.folder)
            self.setUp()

    def test_what_root_does_there_it_does_as_the_spool_s_user(self) -> None:
        """A folder of root's, which this user may rename, isn't removed in the place of what a killed run left."""
        os.remove(f"{self.path}/log")
        for top, _, names in os.walk(self.path):
            for path in top, *(f"{top}/{it}" for it in names):
                self.give(path)
        with self.entered(True, "daemon") as its, mock.patch.object(files, "sync"):
            old = self.put_back(its)
            paths = [os.path.join(top, it) for top, folders, names in os.walk(self.path) for it in folders + names]
            self.assertEqual({1}, {os.lstat(it).st_uid for it in paths})
            self.assertEqual(b"before", self.bytes_of(os.path.relpath(f"{old}/spool.db", self.folder)))
        os.mkdir(f"{self.path}/site.restoring", 0o700)
        self.put("site/site.restoring/kept", "root's")
        with self.entered(True, "daemon") as its, self.assertRaises(PermissionError):
            its.begin()
        self.assertEqual(b"root's", self.bytes_of("site/site.restoring/kept"))
        os.chmod(f"{self.path}/site.restoring", 0o755)
        with self.entered(True, "daemon") as its, self.assertRaises(OSError):
            its.begin()
        self.assertEqual(b"root's", self.bytes_of("site/site.restoring/kept"))


class Sources(Folder):
    def setUp(self) -> None:
        super().setUp()
        self.copy = f"{self.folder}/mysite.20261128T154726Z"
        for name, text in ("spool.db", "x"), ("spool.db-wal", "y"), ("spool.db-word", "w1\n"), ("refused/3", "why"):
            self.put(f"mysite.20261128T154726Z/spool/{name}", text)
        self.settings = self.put("mysite.20261128T154726Z/settings.toml", 'name = "mysite"\n')
        self.found = Settings("mysite", "/etc/uuspool.toml", "/", "/s/spool.db", "/log", "UTC0")

    def source(self) -> source.Source:
        return source.Source(self.copy, self.found, os.geteuid())

    def test_what_it_has(self) -> None:
        with self.source() as its:
            self.assertEqual(("w1", ""), (its.word, its.mark))
            target = Target(f"{self.folder}/target")
            its.put_spool(target)
        self.assertEqual([b"x", b"y", b"w1\n"], [self.bytes_of(f"target/spool.db{end}") for end in ("", "-wal", "-word")])
        for text in "0a\n", "0a 1 1\n":
            self.put(f"{os.path.relpath(self.copy, self.folder)}/spool/copied", text)
            with self.source() as its:
                self.assertEqual("0a", its.mark)
        self.put(f"{os.path.relpath(self.copy, self.folder)}/spool/spool.db-wal", "")
        self.refuses("spool.db-wal has 0 bytes, and had 1 in the copy")
        os.remove(f"{self.copy}/spool/spool.db-wal")
        self.refuses("spool.db-wal is missing, and had 1 in the copy")

    def test_what_is_no_copy_of_this_site(self) -> None:
        self.put("mysite.20261128T154726Z/settings.toml", 'name = "unc"\n')
        self.refuses("is a copy of another site, unc: name a copy of mysite")
        self.put("mysite.20261128T154726Z/settings.toml", "name = [")
        self.source().__exit__()
        os.remove(f"{self.copy}/spool/spool.db-word")
        self.refuses("has no file spool.db-word, so neighbours would take its jobs for others")
        os.remove(f"{self.copy}/spool/spool.db")
        self.refuses("has no file spool.db, which /etc/uuspool.toml names")
        os.rename(f"{self.copy}/spool", f"{self.copy}/elsewhere")
        os.symlink("elsewhere", f"{self.copy}/spool")
        self.refuses("has no folder spool")
        os.chmod(self.copy, 0o777)
        self.refuses("others may write .*: copy it to a folder of your own$")
        self.copy = "/nowhere"
        self.refuses("No such file or directory: name a folder that uuspool-backup made")

    def refuses(self, why: str) -> None:
        with self.assertRaisesRegex(Failure, why):
            self.source()

    def test_files_of_others_and_links(self) -> None:
        os.rename(f"{self.copy}/spool/spool.db-word", f"{self.folder}/word")
        os.symlink(f"{self.folder}/word", f"{self.copy}/spool/spool.db-word")
        self.refuses("spool.db-word: Too many levels of symbolic links")
        os.remove(f"{self.copy}/spool/spool.db-word")
        os.rename(f"{self.folder}/word", f"{self.copy}/spool/spool.db-word")
        self.give(f"{self.copy}/spool/spool.db-word")
        self.refuses("belongs to user 1, not 0: correct it by chown -h")


class Numbers(Folder):
    def test_the_number(self) -> None:
        for least, copys, presents, greatest, number in (0, 5, 9, 7, 1009), (0, 5, 9, 20, 1021), (0, 5, 0, 7, 1_000_008), (0, 50, 0, 7, 1_000_050), (9, 5, 9, 7, 9), (70, 5, 0, 7, 70):
            self.assertEqual(number, restore._number(least, copys, presents, greatest))
        for least, greatest, why in (8, 8, "numbers up to 8 may have been given: say 9 or more"), (0, 4294967000, "say one by -n"):
            with self.assertRaisesRegex(Failure, why):
                restore._number(least, 5, 5, greatest)

    def test_words(self) -> None:
        for words in [], ["a", "b"], ["-n", "0", "a"], ["-n", "x", "a"], ["-n", "4294967295", "a"], ["-n7"], ["-x", "a"]:
            with self.assertRaisesRegex(Failure, "usage: "):
                restore.run(Quiet(self.folder), words)

    def test_the_numbers_that_were_given_up(self) -> None:
        first, second, named = restored.Time(7, 1000), restored.Time(9, 2000), restored.Time(9, 2000, "0f")
        for text, times in ("", []), ("7 1000\n", [first]), ("7 1000\n9 2000\n", [first, second]), ("7 1000\n9 2000 0f\n", [first, named]), ("x", []), ("7\n", []), ("7 -1\n", []), ("7 9 x y\n", []), ("7 1000\n" * 10_000, []):
            self.assertEqual(times, restored.times_in(text))
        self.assertEqual("7 1000\n9 2000 0f\n", restored.text_of([first, named, first]))

    def test_which_jobs_were_done(self) -> None:
        self.assertFalse(restored.was_done(self.folder, 1))
        # A copy with the next number 4700 was put back, then a newer one, and then one that was made after that.
        for text, done in ("4700 5822\n", "1 4699"), ("4700 5822\n4800 6822\n", "1 4699"), ("4700 5822\n4800 6822\n6900 7900\n", "4699 6850"):
            self.put("restored", text)
            self.assertEqual([True, True], [restored.was_done(self.folder, int(it)) for it in done.split()])
            self.assertEqual([False] * 3, [restored.was_done(self.folder, it) for it in (4700, 4750, 8000)])
        for text in "x\n4700 5822\n", "4700 5822\n" * 10_000:
            self.put("restored", text)
            self.assertFalse(restored.was_done(self.folder, 1))

    def test_files_of_a_user_are_brought_over_whatever_their_names_are(self) -> None:
        names = "x.lock", "radio.port", "duke.waits", ".x.new", "7.works", "duke.answer.3"
        self.assertEqual([(True, False, False)] * len(names), [tuple(restore._wanted(folder, set())(it) for folder in ("notes", "calls", "taylor")) for it in names])
        its = mock.Mock(_is_same=True)
        its._source.name = "spool.db"
        self.assertEqual([True] * len(names), [restore.Restoration._is_carried(its, it) for it in names])
        self.assertFalse(restore.Restoration._is_carried(its, "spool.db-lock"))

    def test_which_notes_of_taylor_are_brought_over(self) -> None:
        wanted, other = restore._wanted("taylor", {3}), restore._wanted("deliver", {3})
        for name, is_taylors, is_others in ("3.json", True, True), ("4.json", False, True), ("begun.json", True, True), ("3.lock", False, False):
            self.assertEqual((is_taylors, is_others), (wanted(name), other(name)))


    def test_what_was_just_being_handed_to_taylor_and_is_lost_stays_taylors(self) -> None:
        """A note of it would take it back. One of which the job is in the copy, or was killed, is brought over."""
        for system, numbers in ("duke", "[3, 4]"), ("phs", "[4, 7]"), ("unc", "7"):
            self.put(f"spool/taylor/{system}/begun.json", f'{{"numbers": {numbers}}}')
            self.put(f"spool/taylor/{system}/9.json")
        there = mock.Mock(path=f"{self.folder}/spool", seen=os.stat(self.folder))
        its = restore.Restoration(Quiet(self.folder), mock.Mock(), "", there, mock.Mock())
        its._source.name, its._is_same = "spool.db", True
        with files.opened(f"{self.folder}/spool") as its._place.handle:
            self.assertEqual({3: "", 4: "", 7: "", 9: ""}, its._handed())
            its._fill(Target(f"{self.folder}/made"), {3, 4, 9})
        found = [it for it in ("duke", "phs", "unc") if os.path.exists(f"{self.folder}/made/taylor/{it}/begun.json")]
        self.assertEqual((["duke", "unc"], []), (found, its.faults))


class Told(Folder):
    def test_a_file_in_pieces_is_one_line(self) -> None:
        def piece(number: int, at: int, user: str = "ann") -> Job:
            return Job.read(f"{number} duke {user} N {DAY} 10:00:00 3 exec {COMMAND} {'0a' * 32}.9.3.m {at} send /x ~/x")

        done, killed, lost = logged.Line("m1", "settle"), logged.Line("m2", "kill"), [logged.Anew(number, ("--", "phs")) for number in (21, 22)]
        gone = [restore.Gone(piece(1, 0), done, None), restore.Gone(piece(2, 3), done._replace(moment="m3"), None), restore.Gone(piece(3, 6), killed, None)]
        gone += [restore.Gone(piece(4 + at, 3 * at, "joe"), done, it) for at, it in enumerate(lost)]
        said = [
            "done before (settle, m1): job 1 for duke of ann: send /x ~/x (2 of 3 pieces)",
            "done before (kill, m2): job 3 for duke of ann: send /x ~/x (1 of 3 pieces)",
        ]
        again = " since job 21 is lost: job 4 for duke of joe: send /x ~/x (2 of 3 pieces)"
        self.assertEqual([*said, f"queued anew for phs as job 31,{again}"], restore._by_files(restore._fates(gone, {4: 31, 5: 32})))
        self.assertEqual([*said, f"waits again,{again}"], restore._by_files(restore._fates(gone, {})))
        others = [("not in the copy", "", Job.read(LINE.replace("7", number, 1))) for number in ("7", "8")]
        self.assertEqual([f"not in the copy: job {number} for duke of ann: exec rmail joe" for number in (7, 8)], restore._by_files(others))

    def test_a_spool_that_cannot_be_read(self) -> None:
        said = "the spool that was there can't be read (%s), so nobody knows which of its jobs aren't in the copy"
        self.put("spool.db-word", "w1")
        missing, known = OSError(2, "No such file or directory"), restore.Known(7, [])
        for database, found, why in ([missing], known, missing.strerror), (None, restore.Known(0, []), "uuspool failed"), (None, known, ""):
            its_turn, stack, session = mock.Mock(), contextlib.ExitStack(), Quiet(self.folder)
            its_turn.database = mock.Mock(side_effect=database, return_value=contextlib.nullcontext(1))
            its = restore.Restoration(session, mock.Mock(), "", mock.Mock(), mock.Mock(word="w1"))
            its._source.name = "spool.db"
            with files.opened(self.folder) as its._place.handle, mock.patch.object(its, "_known", return_value=found):
                self.assertEqual(restore.Known(0 if why else 7, []), its._present(mock.Mock(), its_turn, stack))
            its._tell([], {}, 9, "/before")
            self.assertEqual([said % why] if why else [], session.printed[:-2])


class Stale(Folder):
    def setUp(self) -> None:
        super().setUp()
        self.spool = StandIn([parcel(), parcel(LINE.replace("7 ", "2000 ", 1))])
        self.site = site(self.folder, self.spool)

    def take(self, number: int, reason: str = "Stale") -> list[str]:
        self.spool.settled = Settled((), (Refused(number, reason),))
        taken = Neighbour(self.site, "duke", []).take(b"bundle\nhas 3 5\n")
        self.counts = taken.removed, taken.requeued, taken.makes_room
        return taken.faults

    def test_a_job_of_the_copy_was_done_before(self) -> None:
        self.put("restored", "1000 2000\n")
        self.assertEqual([], self.take(7))
        why = "duke had it before the spool here was put back, or it was moved or killed before: queue it again if it never came"
        self.assertEqual(((1, 0, True), [f"duke ann 7 refused-for-good {why}"], [2000]), (self.counts, self.site.log[:1], sorted(self.spool.parcels)))
        kept = next(it for it in os.listdir(f"{self.folder}/refused") if it.startswith("7"))
        self.assertEqual([why, parcel().job.line], self.bytes_of(f"refused/{kept}").decode().split("\n")[:2])
        self.assertEqual([], self.take(7))
        self.assertEqual((0, 0, False), self.counts)

    def test_other_jobs_are_queued_anew(self) -> None:
        self.put("restored", "1000 2000\n")
        for number, reason in (2000, "Stale"), (7, "Differs"):
            self.take(number, reason)
            self.assertEqual((0, 1, True), self.counts)

    def test_a_spool_that_never_was_put_back(self) -> None:
        self.take(7)
        self.assertEqual((0, 1, True), self.counts)

    def test_a_job_that_cannot_be_removed(self) -> None:
        self.put("restored", "1000 2000\n")
        self.spool.fails["kill"] = SpoolError(3, "uuspool: spool: store")
        self.assertEqual(([], [2000, 7]), (self.take(7), sorted(self.spool.parcels, reverse=True)))
        self.assertEqual((0, 0, False), self.counts)

    def test_a_piece_is_refused_alone(self) -> None:
        piece = LINE.replace("exec rmail joe", f"exec uuspool-piece {'0a' * 32}.9.3.m %d send /x ~/x")
        self.spool = StandIn([parcel(piece % 0), parcel((piece % 3).replace("7 ", "8 ", 1))])
        self.site = site(self.folder, self.spool)
        self.put("restored", "1000 2000\n")
        self.take(7)
        self.assertEqual([8], sorted(self.spool.parcels))


class Locks(Folder):
    def test_one_at_a_time(self) -> None:
        handle = os.open(self.folder, os.O_RDONLY)
        fcntl.flock(handle, fcntl.LOCK_EX)
        other = os.open(self.folder, os.O_RDONLY)
        with self.assertRaisesRegex(Failure, "another uuspool-restore works in x"):
            place._lock(other, "x")
        for it in handle, other:
            os.close(it)
