"""Files in pieces: how they are named, kept, delivered, refused and queued."""
import contextlib
import errno
import hashlib
import itertools
import json
import os
import shutil
import signal
import time
import unittest
from collections.abc import Sequence
from functools import partial
from unittest import mock

from uuspool_calls import clock, deliver, figures, files, newest, outgoing, pieces, public, records, refusals, refuse, works
from uuspool_calls.delivery import Asked, Delivery, Outcome, Wishes
from uuspool_calls.errors import Delay, Failure, Refusal, SpoolError, Stopped
from uuspool_calls.files import memory_file
from uuspool_calls.jobs import Delivered, Job, Parcel
from uuspool_calls.pieces import COMMAND, Piece
from uuspool_calls.processes import Child
from uuspool_calls.values import Any
from uuspool_calls.wholes import Whole

from .standins import LINE, Folder, StandIn, aged, parcel, site

SUM = "0" * 64
LENGTH = 1000
DATA = bytes(range(256)) * 10  # 2,560 bytes: three pieces


def words_of(data: bytes, at: int, *what: str, mark: str = "m", sum_of: str = "") -> tuple[str, ...]:
    file = f"{sum_of or hashlib.sha256(data).hexdigest()}.{len(data)}.{LENGTH}.{mark}"
    return COMMAND, file, str(at), *(what or ("send", "/x", "~/in/x"))


def file_of(line: tuple[str, ...]) -> str:
    """The file of a piece that is queued."""
    return line[line.index(COMMAND) + 1]


class Names(unittest.TestCase):
    def test_words(self) -> None:
        good = (COMMAND, f"{SUM}.2560.1000.m-1", "2000", "send", "/x", "~/x")
        piece = Piece.read(good)
        assert piece
        self.assertEqual((good, 560, 3, "piece 3 of 3"), (tuple(piece.line()), piece.bytes, piece.total, piece.place))
        for at, word in (
            (1, SUM), (1, f"{SUM[1:]}.2560.1000.m"), (1, f"{SUM}.2560.0.m"), (1, f"{SUM}.02560.1000.m"), (1, f"{SUM}.{'9' * 19}.1000.m"), (1, f"{SUM}.2560.1000."),
            (1, f"{SUM}.2560.1000.../x"), (2, "3000"), (2, "1"), (2, "-1000"), (2, "x"), (3, "request"), (0, "rmail"),
        ):  # fmt: skip
            self.assertIsNone(Piece.read((*good[:at], word, *good[at + 1 :])), word)
        self.assertIsNone(Piece.read(good[:5]))
        self.assertIsNotNone(Piece.read((COMMAND, f"{SUM}.{'9' * 18}.1.m", "9" * 17, "exec", "rmail", "joe")))
        self.assertEqual("piece 1 of 1", Piece(SUM, 0, LENGTH, "m", 0, ("send", "a", "b")).place)

    def test_words_of_an_older_site(self) -> None:
        piece = Piece.read((COMMAND, SUM, "2500000", "2", "~/x"))
        assert piece
        self.assertEqual((2_000_000, 500_000, ("send", "~/x", "~/x")), (piece.at, piece.bytes, piece.words))
        for words in (SUM, "2500000", "3", "~/x"), (SUM, "x", "0", "~/x"), (SUM[1:], "3", "0", "~/x"):
            self.assertIsNone(Piece.read((COMMAND, *words)), words)

    def test_jobs_of_one_file(self) -> None:
        lines = [LINE.replace("rmail joe", " ".join(words_of(DATA, at, mark=mark))) for at in (0, 1000) for mark in "mn"]
        jobs = [Job.read(f"{number}{line[1:]}") for number, line in enumerate((LINE, *lines, lines[0].replace("ann", "eve")))]
        self.assertEqual([[0], [1, 3], [2, 4], [5]], [[it.number for it in pieces.together(job, jobs)] for job in (jobs[0], jobs[1], jobs[2], jobs[5])])
        self.assertEqual(("send /x ~/in/x", 2560), (pieces.whole_of(jobs[1]).what, pieces.whole_of(jobs[1]).size))
        self.assertEqual((jobs[0], "0"), (pieces.whole_of(jobs[0]), pieces.name_of(jobs[0])))


class Arrivals(Folder):
    """A delivery in a folder."""

    def setUp(self) -> None:
        super().setUp()
        for name in "public", "refused", "etc":
            os.mkdir(f"{self.folder}/{name}")
        self.put("etc/commands", f"rmail {self.folder}/rmail\n")
        self.put("rmail", f'#!/bin/sh\necho "$UUSPOOL_JOB $*" >>{self.folder}/ran\ncat >{self.folder}/mail\n[ ! -e {self.folder}/busy ] || exit 75\n', 0o755)
        self.put("sendmail", f"#!/bin/sh\ncat >{self.folder}/letter\n", 0o755)
        places = {"UUSPOOL_PUBLIC": f"{self.folder}/public", "UUSPOOL_SENDMAIL": f"{self.folder}/sendmail"}
        self.site = site(self.folder, StandIn(), **places, UUSPOOL_COMMAND_LIMIT="5")
        self.session = self.site.session
        self.session.processes = type(self.session.processes).__mro__[1]()
        self.waiting: dict[int, Job] = {}  # as the spool has them
        self.delivery = Delivery(self.session, "mysite", (self.folder, f"{self.folder}/refused"), self.session.environment, Asked(self.fail, ["mysite", "b"].__contains__, self.waiting.get, "w1"))
        self.number = 0

    def job(self, words: tuple[str, ...], content: int, user: str = "a!ann") -> Delivered:
        self.number += 1
        return Delivered("exec", words, content, "a", user, f"mysite!{self.number}!2026-11-28.10:00:00")

    def take(self, data: bytes, at: int, *what: str, **given: str) -> Outcome:
        with memory_file(given.pop("piece", "").encode() or data[at : at + LENGTH]) as content:
            return self.delivery.deliver(self.job(words_of(data, at, *what, **given), content))

    def refuse(self, why: str, data: bytes, at: int, *what: str, **given: str) -> None:
        with self.assertRaisesRegex(Refusal, why):
            self.take(data, at, *what, **given)

    def kept(self) -> list[list[str]]:
        """The files in the folders of those that come."""
        top = f"{self.folder}/pieces/a"
        names = sorted(os.listdir(top)) if os.path.isdir(top) else []
        return [sorted(os.listdir(f"{top}/{name}")) for name in names if not name.endswith(".lock")]


class Coming(Arrivals):
    def test_in_any_order(self) -> None:
        for order in (0, 1000, 2000), (2000, 1000, 0), (1000, 1000, 2000, 2000, 0), (2000, 0, 0, 1000):
            for at in order[:-1]:
                outcome = self.take(DATA, at)
                self.assertEqual(("kept", f"piece {at // 1000 + 1} of 3 of send /x ~/in/x", False), (outcome.how, outcome.what, outcome.is_last))
                self.assertFalse(os.path.exists(f"{self.folder}/public/a/in/x"))
            outcome = self.take(DATA, order[-1])
            self.assertEqual(("delivered", "send /x ~/in/x", True), (outcome.how, outcome.what, outcome.is_last))
            self.assertEqual(DATA, self.bytes_of("public/a/in/x"))
            self.number -= 1
            self.delivery.forget(self.job(words_of(DATA, order[-1]), -1))
            self.assertEqual([["about"]], self.kept())
            shutil.rmtree(f"{self.folder}/pieces")
            os.remove(f"{self.folder}/public/a/in/x")

    def test_no_file_of_this_site_comes_where_those_of_a_neighbour_will(self) -> None:
        whole = Delivered("send", ("/x", "~/b/x"), -1, "", "ann", "mysite!1!2026-11-28.10:00:00")
        with memory_file(b"x") as content:
            for job in whole, whole._replace(kind="exec", words=words_of(DATA, 0, "send", "/x", "~/b/x")):
                with self.assertRaisesRegex(Refusal, "~/b/x is where files of b come to mysite"):
                    self.delivery.deliver(job._replace(content=content))
            for path in "~/mysite/x", "~/c/b/x":
                self.delivery.deliver(whole._replace(content=content, words=("/x", path)))
            with self.assertRaisesRegex(Refusal, "~/b is where files of b come to mysite"):
                self.delivery.deliver(whole._replace(content=content, words=("/x", "~/b")))

    def test_no_file_of_a_neighbour_in_the_common_folder_comes_where_those_of_another_will(self) -> None:
        self.put("etc/public", f"a {self.folder}/public\n")
        job = Delivered("send", ("/x", "~/b/x"), -1, "a", "a!ann", "mysite!1!2026-11-28.10:00:00")
        with memory_file(b"x") as content:
            with self.assertRaisesRegex(Refusal, "~/b/x is where files of b come to mysite"):
                self.delivery.deliver(job._replace(content=content))
            for path in "~/a/x", "~/x":
                self.delivery.deliver(job._replace(content=content, words=("/x", path)))

    def test_no_more_is_kept_than_came(self) -> None:
        for at in 2000, 0, 1000:
            self.take(DATA + bytes(LENGTH), at)
        self.assertEqual([["about", "front", "whole"]], self.kept())
        huge = 10**18 - 10
        for at in 0, huge - huge % LENGTH - LENGTH:
            with memory_file(bytes(LENGTH)) as content:
                self.delivery.deliver(self.job((COMMAND, f"{SUM}.{huge}.{LENGTH}.m", str(at), "send", "a", "b"), content))
        sizes = [os.stat(f"{folder}/{name}").st_size for folder, _, names in os.walk(f"{self.folder}/pieces") for name in names]
        self.assertLess(sum(sizes), 10 * LENGTH)

    def test_each_piece_costs_the_same(self) -> None:
        """The last of many pieces looks at no more files than the first ones do."""
        data = bytes(200 * LENGTH)
        looks: list[int] = []
        for at in range(0, len(data), LENGTH):
            with mock.patch("os.path.exists", side_effect=os.path.exists) as looked, mock.patch("os.listdir", side_effect=os.listdir) as listed:
                self.take(data, at)
                looks.append(looked.call_count + listed.call_count)
        self.assertEqual(1, len(set(looks[1:-1])))

    def test_what_a_stop_left_of_a_piece(self) -> None:
        self.take(DATA, 0)
        [folder] = [it for it in os.listdir(f"{self.folder}/pieces/a") if not it.endswith(".lock")]
        path = f"{self.folder}/pieces/a/{folder}/whole"
        with open(path, "ab") as file:
            file.write(b"half")
        self.take(DATA, 1000)
        self.take(DATA, 2000)
        self.assertEqual(DATA, self.bytes_of("public/a/in/x"))

    def test_a_copy_of_the_whole_may_be_older_than_that_of_its_note(self) -> None:
        self.take(DATA, 0)
        self.take(DATA, 1000)
        [folder] = [it for it in os.listdir(f"{self.folder}/pieces/a") if not it.endswith(".lock")]
        os.truncate(f"{self.folder}/pieces/a/{folder}/whole", 1500)
        self.take(DATA, 1000)
        self.take(DATA, 2000)
        self.assertEqual(DATA, self.bytes_of("public/a/in/x"))

    def test_what_a_power_cut_left_of_a_piece(self) -> None:
        """(Its place without its bytes, which another piece may follow, or which an early one had.)"""
        for order in (0, 1000, 2000), (0, 2000, 1000), (0, 2000, 1000, 2000), (0, 1000, 1000, 2000), (2000, 0, 1000), (2000, 1000, 0):
            for cut in range(len(order) - 1):
                for at in order[: cut + 1]:
                    self.take(DATA, at)
                [folder] = [it for it in os.listdir(f"{self.folder}/pieces/a") if not it.endswith(".lock")]
                os.truncate(f"{self.folder}/pieces/a/{folder}/whole", len(DATA))
                for at in order[cut + 1 :]:
                    self.take(DATA, at)
                self.assertEqual(DATA, self.bytes_of("public/a/in/x"))
                shutil.rmtree(f"{self.folder}/pieces")
                os.remove(f"{self.folder}/public/a/in/x")

    def test_delivered_once_though_a_stop_came_before_the_note(self) -> None:
        for at in 0, 1000:
            self.take(DATA, at, "exec", "rmail", "joe")
        for _ in range(2):
            self.assertEqual("exec rmail joe", self.take(DATA, 2000, "exec", "rmail", "joe").what)
            self.number -= 1
        self.assertEqual(b"mysite!3!2026-11-28.10:00:00 joe\n", self.bytes_of("ran"))
        self.number += 1
        for again in range(2):  # a piece that comes again in another job, before and after the file is forgotten
            self.assertEqual("came-before", self.take(DATA, 2000, "exec", "rmail", "joe").how)
            self.number = 2
            self.delivery.forget(self.job(words_of(DATA, 2000, "exec", "rmail", "joe"), -1))
            self.assertEqual([["about"]], self.kept())

    def test_delivered_once_though_there_is_no_room_for_the_note(self) -> None:
        replace, fails_from = files.replace, 0

        def full(path: str, data: bytes | int, mode: int = 0o600) -> None:
            if os.path.exists(f"{self.folder}/ran") or not fails_from:
                raise OSError(errno.ENOSPC, os.strerror(errno.ENOSPC))
            replace(path, data, mode)

        for at in 0, 1000:
            self.take(DATA, at, "exec", "rmail", "joe")
        with mock.patch.object(files, "replace", full):
            with self.assertRaisesRegex(Delay, "piece 3 of 3 of joe cannot be kept .*: No space left on device"):
                self.take(DATA, 2000, "exec", "rmail", "joe")
            self.assertFalse(os.path.exists(f"{self.folder}/ran"))
            fails_from = 1
            for number in 7, 7, 8:  # the same job again, and another one with this piece
                self.number = number - 1
                how = self.take(DATA, 2000, "exec", "rmail", "joe").how
                self.assertEqual("delivered" if number == 7 else "came-before", how)
        self.assertEqual(1, len(self.bytes_of("ran").splitlines()))

    def test_a_note_that_cannot_be_made_is_said(self) -> None:
        with mock.patch.object(pieces.File, "note_came", side_effect=OSError(errno.EROFS, "Read-only file system")):
            self.assertTrue(self.take(DATA[:10], 0, "exec", "rmail", "joe").is_last)
        self.assertRegex(self.session.said[0], "^exec rmail joe is delivered, and that cannot be noted in .*: Read-only file system")

    def test_a_command_gets_the_whole_with_its_envelope(self) -> None:
        data = b"Subject: x\n\n" + bytes(2 << 20)
        length = 1 << 20
        for at in range(0, len(data), length):
            with memory_file(data[at : at + length]) as content:
                file = f"{hashlib.sha256(data).hexdigest()}.{len(data)}.{length}.m"
                self.delivery.deliver(self.job((COMMAND, file, str(at), "exec", "rmail", "joe"), content))
        first, _, rest = self.bytes_of("mail").partition(b"\n")
        self.assertEqual((True, True), (first.startswith(b"From ann ") and first.endswith(b" remote from a"), rest == data))

    def test_a_command_whose_beginner_was_killed_runs_once_whichever_piece_comes_again(self) -> None:
        self.put("rmail", f"#!/bin/sh\necho $$ >>{self.folder}/ran\nexec sleep 100\n", 0o755)
        for at in 0, 1000:
            self.take(DATA, at, "exec", "rmail", "joe")
        delivery = Child(lambda: self.take(DATA, 2000, "exec", "rmail", "joe") and 0)
        while not (os.path.exists(f"{self.folder}/ran") and self.bytes_of("ran")):
            time.sleep(0.01)
        delivery.kill()
        delivery.wait()
        self.assertEqual(1, deliver._still_working(self.folder))
        for at in 2000, 1000:
            with self.assertRaisesRegex(Delay, "^rmail at mysite still works on it, though what began it was ended"):
                self.take(DATA, at, "exec", "rmail", "joe")
        [number] = map(int, self.bytes_of("ran").split())
        os.kill(number, signal.SIGKILL)
        self.expect_end(number)
        self.put("rmail", "#!/bin/sh\n", 0o755)
        while deliver._still_working(self.folder):
            time.sleep(0.01)
        self.assertTrue(self.take(DATA, 0, "exec", "rmail", "joe").is_last)

    def test_a_command_that_fails_is_tried_again_with_the_last_piece(self) -> None:
        self.put("busy")
        self.take(DATA, 2000, "exec", "rmail", "joe")
        self.take(DATA, 1000, "exec", "rmail", "joe")
        with self.assertRaisesRegex(Delay, "failed with status 75"):
            self.take(DATA, 0, "exec", "rmail", "joe")
        os.remove(f"{self.folder}/busy")
        self.number -= 1
        self.assertTrue(self.take(DATA, 0, "exec", "rmail", "joe").is_last)

    def test_a_whole_has_one_name_whatever_piece_brings_it_to_its_end(self) -> None:
        self.put("busy")
        mail = "exec", "rmail", "joe"
        self.take(DATA, 0, *mail)
        self.take(DATA, 1000, *mail)
        for number, at in (3, 2000), (1, 0):
            self.number = number - 1
            self.waiting[3] = Job.read(f"3 mysite a!ann N 2026-11-28 10:00:00 560 exec {' '.join(words_of(DATA, 2000, *mail))}")
            self.assertRaisesRegex(Delay, "failed with status 75", self.take, DATA, at, *mail)
        os.remove(f"{self.folder}/busy")
        self.waiting[3] = Job.read(LINE)  # (a job of another file has its number)
        self.take(DATA, 0, *mail)
        self.assertEqual([3, 3, 2], [int(it.split(b"!")[1]) for it in self.bytes_of("ran").splitlines()])

    def test_tries_and_users_dont_mix(self) -> None:
        self.take(DATA, 0)
        self.take(DATA, 1000, mark="n")
        with memory_file(DATA[:LENGTH]) as content:
            self.delivery.deliver(self.job(words_of(DATA, 0), content, "a!eve"))
        self.assertEqual(3, len(self.kept()))

    def test_no_letter_that_a_member_s_file_came_goes_to_a_neighbour(self) -> None:
        """(A neighbour for which too many letters wait hears no more of refused jobs.)"""
        with memory_file(DATA[:LENGTH]) as content, self.assertRaisesRegex(Refusal, "writes to its own users that a file came, not to a!joe"):
            self.delivery.deliver(self.job(words_of(DATA, 0, "send", "/x", "~/x", "-na!joe"), content, "ann")._replace(sender=""))
        self.assertEqual([], self.kept())

    def test_what_is_refused_with_the_first_piece(self) -> None:
        self.refuse("a file below its public folder|below its public folder alone", DATA, 0, "send", "/x", "/etc/x")
        self.refuse("below its public folder alone", DATA, 0, "send", "/x", "~/../x")
        self.refuse("has no command sh", DATA, 0, "exec", "sh", "-c", "id")
        self.refuse("takes no mail of a for c!joe", DATA, 0, "exec", "rmail", "c!joe")
        self.refuse("writes to its own users that a file came, not to c!joe", DATA, 0, "send", "/x", "~/x", "-nc!joe")
        self.refuse("takes no mail of a for joe@c.example", DATA, 0, "send", "/x", "~/x", "-njoe@c.example")
        self.refuse("has no option -x", DATA, 0, "send", "/x", "~/x", "-x")
        self.refuse("no piece of another file", DATA, 0, "exec", *words_of(DATA, 0))
        self.refuse("is no piece of a file", DATA, 1)
        self.assertEqual([], self.kept())

    def test_pieces_that_contradict_each_other(self) -> None:
        self.refuse("piece 1 of 3 of ~/in/x has 3 bytes, not 1000", DATA, 0, piece="abc")
        self.take(DATA, 0)
        self.take(DATA, 1000)
        self.refuse("piece 1 of 3 of ~/in/x came twice, with other bytes", DATA, 0, piece="x" * LENGTH)
        self.take(DATA, 0, mark="early")
        self.take(DATA, 2000, mark="early")
        self.refuse("piece 3 of 3 of ~/in/x came twice", DATA, 2000, mark="early", piece="x" * 560)
        self.refuse("not those of one file, which changed", b"abc", 0, sum_of=SUM)

    def test_a_full_disk_takes_no_piece(self) -> None:
        disk = os.statvfs(self.folder)
        with mock.patch("os.statvfs", return_value=mock.Mock(f_bavail=4, f_blocks=100, f_favail=disk.f_favail, f_files=disk.f_files)):
            with self.assertRaisesRegex(Delay, "less than one part in 20 of the disk .* is free"):
                self.take(DATA, 0)
        self.take(DATA, 0)


class Refused(Arrivals):
    def setUp(self) -> None:
        super().setUp()
        self.deliverer = deliver.Deliverer(self.site)
        self.spool: StandIn = self.site.spool  # type: ignore[assignment]
        self.log: list[str] = self.site.log  # type: ignore[assignment]

    def give(self, at: int, *what: str, number: int = 0, data: bytes = DATA) -> int:
        """Delivers a piece as a job of the spool."""
        words = words_of(data, at, *what)
        self.number = number or self.number + 1
        text = data[at : at + LENGTH]
        it = parcel(f"{self.number} mysite a!ann N 2026-11-28 10:00:00 {len(text)} exec {' '.join(words)}", text)
        self.spool.parcels[self.number] = it
        return self.deliverer.deliver(self.number)

    def letters(self) -> list[tuple[str, ...]]:
        return [it for it in self.spool.asked if it[0] == "mail"]

    def test_one_letter_though_pieces_come_later(self) -> None:
        self.put("public/a/.uuspool")
        self.put("public/a/in/x/y")
        for at in 0, 1000, 2000:
            self.assertEqual(0, self.give(at))
        self.assertEqual(0, refusals.tell(self.site))
        self.assertEqual([("mail", "--once=mysite!1!refused", "--", "a!ann")], self.letters())
        [folder] = [it for it in os.listdir(f"{self.folder}/refused") if it.endswith(".file")]
        self.assertEqual((DATA, []), (self.bytes_of(f"refused/{folder}/whole"), self.kept()))
        self.assertEqual(["mysite a!ann 1 kept piece 1 of 3 of send /x ~/in/x", "mysite a!ann 2 kept piece 2 of 3 of send /x ~/in/x"], self.log[:2])
        self.assertRegex(self.log[2], "^mysite a!ann 3 refused-for-good ~/in/x is a folder, or leads out")

    def test_a_file_refused_with_its_first_piece_takes_the_others(self) -> None:
        for at in 0, 1000, 2000:
            self.give(at, "exec", "sh")
            self.assertEqual(0, refusals.tell(self.site))
        self.assertEqual(1, len(self.letters()))
        [folder] = [it for it in os.listdir(f"{self.folder}/refused") if it.endswith(".file")]
        self.assertEqual(DATA, self.bytes_of(f"refused/{folder}/whole"))
        self.assertEqual("mysite a!ann 3 refused-for-good mysite has no command sh for neighbours: " + f"{self.folder}/etc/commands has no line of it", self.log[2])

    def test_a_file_is_not_refused_while_a_command_works_on_it_or_once_it_came(self) -> None:
        """(The delivery that began the command was killed.)"""
        for at in 0, 1000:
            self.give(at, "exec", "rmail", "joe")
        [folder] = [it for it in os.listdir(f"{self.folder}/pieces/a") if not it.endswith(".lock")]
        works.note(f"{self.folder}/pieces/a/{folder}/works")
        commands = self.bytes_of("etc/commands")
        for lines in commands, b"":  # (and if the command isn't allowed any more)
            self.put("etc/commands", lines)
            self.assertEqual(0, self.give(2000, "exec", "rmail", "joe", number=3))
            self.assertEqual("mysite a!ann 3 waits rmail at mysite still works on it, though what began it was ended", self.log[-1])
        with self.assertRaisesRegex(Failure, "^job 3 cannot be refused now, and waits: rmail at mysite still works on it"):
            refuse._refuse(self.site, self.spool.parcels[3], "why")
        self.assertEqual(([], True), (os.listdir(f"{self.folder}/refused"), 3 in self.spool.parcels))
        self.put("etc/commands", commands)
        self.put(f"pieces/a/{folder}/works")
        self.spool.fails["done"] = SpoolError(3, "uuspool: spool: store")
        self.assertRaises(Failure, self.give, 2000, "exec", "rmail", "joe", number=3)
        with self.assertRaisesRegex(Failure, "^job 3 is delivered, and the spool could not note that yet"):
            refuse._refuse(self.site, self.spool.parcels[3], "why")
        self.spool.fails.clear()
        self.assertEqual((0, 1), (self.deliverer.deliver(3), len(self.bytes_of("ran").splitlines())))

    def test_a_job_that_is_no_piece_is_kept_as_a_job(self) -> None:
        self.spool.parcels[1] = parcel(f"1 mysite a!ann N 2026-11-28 10:00:00 5 exec {COMMAND} x")
        self.assertEqual(0, self.deliverer.deliver(1))
        self.assertEqual(["1.untold"], os.listdir(f"{self.folder}/refused"))

    def test_a_file_that_cannot_be_forgotten_now_is_delivered(self) -> None:
        for at in 0, 1000:
            self.give(at)
        with mock.patch.object(Delivery, "forget", side_effect=Delay("another process has its lock")):
            self.assertEqual(0, self.give(2000))
        self.assertEqual((("done", "mysite", "3"), DATA), (self.spool.asked[-1], self.bytes_of("public/a/in/x")))

    def test_a_file_of_which_no_more_comes(self) -> None:
        self.give(0)
        self.give(2000)
        self.give(0, "exec", "rmail", "joe", number=9)
        for days in 29, 31:
            deliver._refuse_unfinished(self.site, aged(days))
            self.assertEqual(2 if days < 30 else 0, len(self.kept()))
        self.assertIn("mysite a!ann  refused-for-good send /x ~/in/x: 2 of 3 pieces came, and no other one for 30 days", self.log)
        self.assertEqual(0, refusals.tell(self.site))
        self.assertEqual([("mail", f"--once=mysite!{number}!refused", "--", "a!ann") for number in (1, 9)], sorted(self.letters()))
        self.assertEqual("refused", self.delivery_again(1000))

    def test_a_letter_whose_key_is_forgotten_reaches_its_user(self) -> None:
        """(The file's first job is gone for long when the file is refused.)"""
        self.give(0)
        deliver._refuse_unfinished(self.site, aged(31))
        ask = self.spool.ask

        def forgotten(*words: str, given: bytes | int = b"") -> str:
            answer = ask(*words, given=given)
            if any(it.startswith("--once=") for it in words):
                raise SpoolError(1, "refused Stale")
            return answer

        with mock.patch.object(self.spool, "ask", forgotten):
            self.assertEqual(0, refusals.tell(self.site))
        self.assertEqual([("mail", "--once=mysite!1!refused", "--", "a!ann"), ("mail", "--", "a!ann")], self.letters())
        self.assertFalse(os.path.exists(f"{self.folder}/letter"))

    def delivery_again(self, at: int) -> str:
        with memory_file(DATA[at : at + LENGTH]) as content:
            return self.delivery.deliver(self.job(words_of(DATA, at), content)).how

    def test_a_newer_piece_begins_the_time_anew(self) -> None:
        for at in 0, 1000, 0:
            self.give(at)
            self.look(20)
            self.assertEqual(1, len(self.kept()))
        self.look(9)
        self.assertEqual(1, len(self.kept()))
        self.look(1)
        self.assertEqual(0, len(self.kept()))

    def look(self, days: float) -> None:
        """Two looks, with so many days between them."""
        for running in 5 * 86400.0, (5 + days) * 86400:
            with mock.patch("uuspool_calls.clock.running", return_value=running), mock.patch("uuspool_calls.files.is_fresh", return_value=False):
                deliver._clean(self.site, [])

    def test_what_a_stop_left_is_removed(self) -> None:
        for at in 0, 1000, 2000:
            self.take(DATA, at)
        self.put("pieces/a/odd/about", "{")
        self.put("pieces/a/gone.lock")
        deliver._refuse_unfinished(self.site, aged(30))
        deliver._refuse_unfinished(self.site, aged(30))
        self.assertEqual(([], []), ([it for it in os.listdir(f"{self.folder}/pieces/a") if not it.endswith(".lock")], os.listdir(f"{self.folder}/refused")))

    def test_the_newest_file_is_kept_however_large(self) -> None:
        self.put("public/a/.uuspool")
        self.put("public/a/in/x/y")
        for at in 0, 1000, 2000:
            self.give(at)
        for name in "1", "2":
            self.put(f"refused/{name}", b"no\n" + LINE.replace("ann", "a!ann").encode() + b"\n" + bytes(700_000))
            os.utime(f"{self.folder}/refused/{name}", (86400 * int(name),) * 2)
        self.session.environment |= {"UUSPOOL_REFUSED_DAYS": "40000", "UUSPOOL_REFUSED_MEGABYTES": "0"}
        refusals.forget_excess(self.site)
        self.assertEqual(1, len([it for it in os.listdir(f"{self.folder}/refused") if it[0] != "."]))
        self.session.environment["UUSPOOL_REFUSED_DAYS"] = "0"
        refusals.forget_old(self.site, aged(0))
        self.assertEqual([".lock"], os.listdir(f"{self.folder}/refused"))


class Letters(Refused):
    def test_a_letter_when_it_came(self) -> None:
        for at in 0, 1000, 2000:
            self.give(at, "send", "/x", "~/in/x", "-m", "-nbob")
        self.assertEqual([("mail", "--once=mysite!3!came", "--", "a!ann")], self.letters())
        self.assertIn(b"\nTo: bob\nSubject: a file from a!ann\n", self.bytes_of("letter"))
        self.assertEqual([["about"]], self.kept())

    def test_who_cannot_be_told_is_told_later(self) -> None:
        self.spool.fails["mail"] = SpoolError(3, "uuspool: spool: store")
        self.site.environment["UUSPOOL_SENDMAIL"] = "/nowhere"
        self.assertEqual(0, self.give(0, "send", "/x", "~/in/x", "-m", data=b"abc"))
        self.assertEqual("mysite a!ann 1 waits it is delivered, and a!ann cannot be told: /nowhere takes no letter", self.log[-1])
        os.remove(f"{self.folder}/public/a/in/x")
        job = self.spool.parcels[1].job
        self.assertEqual([[], [1]], [deliver.due(self.site, [job], clock.now() + it) for it in (590, 610)])  # (not in each round)
        tries = records.Tries.read(f"{self.folder}/deliver", "w1", job, 0)
        self.spool.fails = {}
        self.assertEqual(0, self.give(0, "send", "/x", "~/in/x", "-m", number=1, data=b"abc"))
        self.assertEqual((2, False), (len(self.letters()), os.path.exists(f"{self.folder}/public/a/in/x")))
        self.spool.fails["mail"] = SpoolError(3, "uuspool: spool: store")
        tries._replace(failed=30, first=0).write(f"{self.folder}/deliver", 1)
        self.assertEqual(0, self.give(0, "send", "/x", "~/in/x", "-m", number=1, data=b"abc"))
        self.assertEqual("mysite a!ann 1 delivered send /x ~/in/x -m", self.log[-1])

    def test_a_command_runs_once_though_the_spool_cannot_note_it(self) -> None:
        self.spool.fails["done"] = SpoolError(3, "uuspool: spool: store")
        self.spool.parcels[1] = parcel("1 mysite a!ann B 2026-11-28 10:00:00 5 exec rmail joe")
        for _ in range(3):
            with self.assertRaisesRegex(Failure, "job 1 is delivered, and that cannot be noted: uuspool: spool: store"):
                self.deliverer.deliver(1)
            self.assertEqual([1], deliver.due(self.site, [self.spool.parcels[1].job], clock.now()))
        for shown in "B 2026-11-28 11:00:00", "A 2026-11-28 11:00:00":  # (another rule of the site's clock, and another grade)
            self.spool.parcels[1] = parcel(f"1 mysite a!ann {shown} 5 exec rmail joe")
            self.assertRaises(Failure, self.deliverer.deliver, 1)
        self.spool.fails = {}
        self.assertEqual(0, self.deliverer.deliver(1))
        self.assertEqual((1, "mysite a!ann 1 delivered exec rmail joe"), (len(self.bytes_of("ran").splitlines()), self.log[-1]))
        self.assertFalse(os.path.exists(f"{self.folder}/deliver/1"))

    def test_a_job_has_one_name_whatever_the_sites_clock_shows(self) -> None:
        self.put("busy")
        for hour in 10, 11:
            self.spool.parcels[1] = parcel(f"1 mysite a!ann B 2026-11-28 {hour}:00:00 5 exec rmail joe")
            self.assertEqual(0, self.deliverer.deliver(1))
        self.assertEqual(b"mysite!1!2026-11-28.10:00:00 joe\n" * 2, self.bytes_of("ran"))

    def test_a_file_that_came_is_known_whatever_the_sites_clock_shows(self) -> None:
        about = pieces.About(Piece(SUM, 1, 1, "", 0, ("send", "a", "b")), "a!ann", came="mysite!12!2026-11-28.10:00:00")
        names = "mysite!12!2026-11-28.11:00:00", "mysite!2!2026-11-28.10:00:00", "duke!12!2026-11-28.10:00:00", ""
        self.assertEqual([True, False, False, False], [about.came_with(it) for it in names])
        for hour in 10, 11:
            self.spool.fails["done"] = SpoolError(3, "uuspool: spool: store")
            words = " ".join((COMMAND, hashlib.sha256(b"abc").hexdigest(), "3", "0", "~/in/x"))
            self.spool.parcels[1] = parcel(f"1 mysite a!ann B 2026-11-28 {hour}:00:00 3 exec {words}", b"abc")
            self.assertRaises(Failure, self.deliverer.deliver, 1)
        self.assertEqual(["x"], os.listdir(f"{self.folder}/public/a/in"))

    def test_wishes(self) -> None:
        self.assertEqual(Wishes(True, "bob"), Wishes.read(["-m", "-nbob"]))
        for word in "-n", "-x", "m":
            with self.assertRaises(Refusal):
                Wishes.read([word])


class Newest(Refused):
    """Files of one name of one sender."""

    def put_in(self, number: int, path: str = "~/x", user: str = "a!ann") -> None:
        data = f"{number}".encode()
        self.spool.parcels[number] = parcel(f"{number} mysite {user} N 2026-11-28 10:00:00 {len(data)} send /x {path}", data)

    def deliver(self, number: int) -> str:
        """What the log says of the delivery of a job that is there, or comes now."""
        if number not in self.spool.parcels:
            self.put_in(number)
        self.assertEqual(0, self.deliverer.deliver(number))
        return self.log[-1]

    def there(self) -> dict[str, str]:
        top = f"{self.folder}/public/a"
        return {name: self.bytes_of(f"public/a/{name}").decode() for name in sorted(os.listdir(top)) if name[0] != "."}

    def test_an_older_one_that_comes_later_is_put_beside(self) -> None:
        self.deliver(11)
        for _ in range(2):
            self.assertEqual("mysite a!ann 10 delivered send /x ~/x, as ~/x.2", self.deliver(10))
        self.assertEqual({"x": "11", "x.2": "10"}, self.there())
        self.deliver(12)
        self.assertEqual({"x": "12", "x.2": "10"}, self.there())

    def test_one_that_is_overtaken_while_it_is_delivered(self) -> None:
        """(Both have all their bytes before one of them gets the name.)"""
        ready = f"{self.folder}/ready"

        def slow(source: int, target: int) -> None:
            files.copy_all(source, target)
            self.put("ready")
            while os.path.exists(ready):
                time.sleep(0.01)

        with mock.patch("uuspool_calls.public.copy_all", slow):
            older = Child(lambda: self.deliver(10) and 0)
        while not os.path.exists(ready):
            time.sleep(0.01)
        self.deliver(11)
        os.remove(ready)
        self.assertEqual((0, {"x": "11", "x.2": "10"}), (older.wait(), self.there()))

    def test_a_stop_before_the_newer_one_has_its_name(self) -> None:
        self.deliver(9)
        self.put_in(11)
        with mock.patch("uuspool_calls.public._New._takes", side_effect=Stopped), self.assertRaises(Stopped):
            self.deliverer.deliver(11)
        self.assertEqual({"x": "9"}, self.there())
        self.deliver(10)
        self.deliver(11)
        self.assertEqual({"x": "11", "x.2": "10"}, self.there())

    def test_one_that_was_put_beside_is_replaced_by_none_of_its_new_name(self) -> None:
        self.deliver(2)
        self.assertEqual("mysite a!ann 1 delivered send /x ~/x, as ~/x.2", self.deliver(1))
        for number, name in (3, "x.2.2"), (4, "x.2.3"):
            self.put_in(number, "~/x.2")
            for _ in range(2):
                self.assertEqual(f"mysite a!ann {number} delivered send /x ~/x.2, as ~/{name}", self.deliver(number))
        self.assertEqual({"x": "2", "x.2": "1", "x.2.2": "3", "x.2.3": "4"}, self.there())

    def test_one_that_was_put_beside_where_another_was_replaced_before(self) -> None:
        """The record knows the name, and then the file of it was removed. If it has the bytes of the older one, it is another job's all the same."""
        for name, is_removed, beside, names in ("x", True, "x.2", ("x.2", "x.2.2")), ("y", False, "y.3", ("y.3", "y.2")):
            self.put_in(20, f"~/{name}.2")
            self.deliver(20)
            self.put_in(30, f"~/{name}")
            self.deliver(30)
            if is_removed:
                os.remove(f"{self.folder}/public/a/{name}.2")
            self.spool.parcels[21] = parcel(f"21 mysite a!ann N 2026-11-28 10:00:00 2 send /x ~/{name}", b"20")
            for _ in range(2):
                self.assertEqual(f"mysite a!ann 21 delivered send /x ~/{name}, as ~/{beside}", self.deliver(21))
            self.put_in(40, f"~/{name}.2")
            self.deliver(40)
            self.assertEqual(["30", "20", "40"], [self.there()[it] for it in (name, *names)])

    def test_a_kill_before_one_is_put_beside(self) -> None:
        """The name that it was to have is free, and costs nothing."""
        self.put_in(0, "~/x.2")
        self.deliver(0)
        self.deliver(2)
        os.remove(f"{self.folder}/public/a/x.2")
        self.put_in(1)
        link = os.link

        def stopped(*words: Any, **named: Any) -> None:
            if words[1] == "x.2":
                raise Stopped
            link(*words, **named)

        with mock.patch("os.link", stopped), self.assertRaises(Stopped):
            self.deliverer.deliver(1)
        for number in 3, 4:  # (the second replaces the first)
            self.put_in(number, "~/x.2")
            self.deliver(number)
        self.assertEqual("mysite a!ann 1 delivered send /x ~/x, as ~/x.3", self.deliver(1))
        self.assertEqual({"x": "2", "x.2": "4", "x.3": "1"}, self.there())

    def test_a_kill_once_one_is_put_beside(self) -> None:
        self.put_in(0, "~/x.2")
        self.deliver(0)
        self.deliver(2)
        os.remove(f"{self.folder}/public/a/x.2")
        self.put_in(1)
        link = os.link

        def stopped(*words: Any, **named: Any) -> None:
            link(*words, **named)
            if words[1] == "x.2":
                raise Stopped

        with mock.patch("os.link", stopped), self.assertRaises(Stopped):
            self.deliverer.deliver(1)
        self.put_in(3, "~/x.2")
        self.assertEqual("mysite a!ann 3 delivered send /x ~/x.2, as ~/x.2.2", self.deliver(3))
        self.assertEqual("mysite a!ann 1 delivered send /x ~/x, as ~/x.2", self.deliver(1))
        self.assertEqual({"x": "2", "x.2": "1", "x.2.2": "3"}, self.there())

    def test_one_that_was_put_beside_while_neighbours_shared_a_folder(self) -> None:
        shared, table = f"{self.folder}/public/a", f"a {self.folder}/public/a\n"
        os.mkdir(shared)
        self.put("etc/public", table + table.replace("a", "b", 1))
        for number, user in (1, "a!ann"), (2, "b!bob"):
            self.put_in(number, user=user)
            self.deliver(number)
        self.put("etc/public", table)
        for number in 3, 4:
            self.put_in(number, "~/x.2")
            self.deliver(number)
        self.assertEqual({"x": "1", "x.2": "2", "x.2.2": "3", "x.2.3": "4"}, self.there())

    def test_one_for_which_somebody_asked(self) -> None:
        """That user's next one alone replaces it, and it replaces no other."""
        ann, mel, joe = "a!mysite!ann", "a!mysite!mel", "a!joe"
        for number, path, user in (1, "~/x", ann), (2, "~/x", mel), (3, "~/x", joe), (4, "~/x", ann), (5, "~/y", joe), (6, "~/y", ann), (7, "~/y", joe):
            self.put_in(number, path, user)
            self.deliver(number)
        self.assertEqual({"x": "4", "x.2": "2", "x.3": "3", "y": "7", "y.2": "6"}, self.there())

    def test_the_same_bytes_for_which_somebody_asked(self) -> None:
        """They are kept beside what is replaced later, once."""
        for number, user in (1, "a!joe"), (2, "a!mysite!mel"), (2, "a!mysite!mel"):
            self.spool.parcels[number] = parcel(f"{number} mysite {user} N 2026-11-28 10:00:00 2 send /x ~/x", b"v1")
            self.deliver(number)
        self.put_in(3, user="a!joe")
        self.deliver(3)
        self.assertEqual({"x": "3", "x.2": "v1"}, self.there())

    def test_names_with_numbers(self) -> None:
        given = "x.2", "x.999", "d/x.10", "x.1", "x.1000", "x.02", "x.", "x", "x.2/y", "x.10000000", "x.\u0662"
        self.assertEqual(given[:3], tuple(filter(public.has_number, given)))
        for number in 1, 2:  # of which the newest is replaced, as of others
            self.put_in(number, "~/ls.8")
            self.assertEqual(f"mysite a!ann {number} delivered send /x ~/ls.8", self.deliver(number))

    def test_a_file_in_pieces_is_as_old_as_its_first_piece(self) -> None:
        self.give(0, "send", "/x", "~/x", number=1)
        self.give(1000, "send", "/x", "~/x", number=2)
        self.deliver(3)
        self.give(2000, "send", "/x", "~/x", number=4)
        self.assertEqual(("mysite a!ann 4 delivered send /x ~/x, as ~/x.2", "3", DATA), (self.log[-1], self.bytes_of("public/a/x").decode(), self.bytes_of("public/a/x.2")))

    def test_another_sender_another_name_and_another_spool(self) -> None:
        self.deliver(11)
        for number, path, user in (3, "~/y", "a!ann"), (2, "~/d/x", "a!ann"), (1, "~/x", "b!ann"):
            self.put_in(number, path, user)
            self.deliver(number)
        self.assertEqual(["3", "2", "1"], [self.bytes_of(f"public/{it}").decode() for it in ("a/y", "a/d/x", "b/x")])
        self.put("spool.db-word", "w2\n")
        self.deliverer = deliver.Deliverer(self.site)
        self.put_in(5)
        self.assertEqual("mysite a!ann 5 delivered send /x ~/x", self.deliver(5))
        self.assertEqual("5", self.bytes_of("public/a/x").decode())

    def test_the_record_of_a_sender_stays_small(self) -> None:
        path = f"{self.folder}/deliver/.a.files"
        numbers = range(100, 1300)
        with mock.patch.object(files, "replace", lambda path, data, mode=0o600: self.put(path.removeprefix(f"{self.folder}/"), data)):
            self.assertTrue(all(newest.note(path, "w1", f"{number}", number) for number in numbers))
            self.assertLess(os.stat(path).st_size, 40_000)
            self.assertEqual([False, False, True, False, True], [newest.note(path, "w1", name, number) for name, number in (("100", 99), ("new", 150), ("new", 300), ("1299", 1298), ("1299", 1299))])
            newest.note(path, "w1", "x.2", 1300)
            self.assertEqual(1000, len(newest._read(path, "w1")[1]))
            newest.put_beside(path, "w1", "x.2", 1300)
            self.assertEqual([True, False], [newest.is_of_job(path, "w1", "x.2", number) for number in (1300, 1301)])
            self.assertEqual([False, True, False], [newest.note(path, "w1", name, number, is_there=True) for name, number in (("x.2", 1301), ("x", 1301), ("100.2", 2000))])

    def test_a_record_that_is_damaged_or_cannot_be_written(self) -> None:
        for text in "x", "[]", '{"word": "w1"}', '{"word": "w1", "others": 0, "names": []}', '{"word": "w1", "others": 0, "names": {"a": "x"}}':
            self.put("deliver/.a.files", text)
            self.deliver(11)
            self.assertEqual({"x": "11"}, self.there())
        with mock.patch.object(files, "write_record", side_effect=OSError(errno.ENOSPC, os.strerror(errno.ENOSPC))), memory_file(b"12") as content:
            with self.assertRaisesRegex(Delay, "^x waits at mysite, because .*/deliver/.a.files cannot be written: No space left"):
                self.delivery.deliver(Delivered("send", ("/x", "~/x"), content, "a", "a!ann", "mysite!12!2026-11-28.10:00:00"))
        self.assertEqual({"x": "11"}, self.there())


class HandedOn(Refused):
    def test_mail_for_one_next_hop(self) -> None:
        self.put("etc/forward", "a unc phs\n")
        data = b"Subject: x\n\n" + bytes(2_000_000)
        length, file = 1 << 20, f"{hashlib.sha256(data).hexdigest()}.{len(data)}.{1 << 20}.m"
        for addresses, hop in (("unc!joe", "unc!phs!eve"), ("joe", "phs!eve")), (("mysite!unc!joe", "unc!bob"), ("joe", "bob")), (("unc!joe", "phs!joe"), ()), (("joe",), ()):
            self.spool.asked = []
            for at in range(0, len(data), length):
                self.number += 1
                words = " ".join((COMMAND, file, str(at), "exec", "rmail", *addresses))
                text = data[at : at + length]
                self.spool.parcels[self.number] = parcel(f"{self.number} mysite a!ann B 2026-11-28 10:00:00 {len(text)} exec {words}", text)
                self.assertEqual(0, self.deliverer.deliver(self.number))
            asked = [it for it in self.spool.asked if it[0] == "exec"]
            whole = Piece.read((COMMAND, file, "0", "exec", "rmail", *addresses))
            mark = whole.name("a!ann") if whole else ""
            self.assertEqual([("unc", "exec", "rmail", *hop)] * 3 if hop else [], [(it[it.index(COMMAND) - 1], *it[it.index(COMMAND) + 3 :]) for it in asked])
            self.assertEqual({mark} if hop else set(), {file_of(it).rpartition(".")[2] for it in asked})
            self.assertEqual(not hop, os.path.exists(f"{self.folder}/mail"))
            shutil.rmtree(f"{self.folder}/pieces")

    def test_mail_that_came_in_pieces_goes_on_as_the_same_file(self) -> None:
        """Whichever job brings it to its end, as after a restoration. Other mail of the same bytes is another file."""
        self.put("etc/forward", "a unc\n")
        data, files_of = b"From ann Sat Nov 28 12:00:00 2026 remote from a\n\n" + bytes(1_500_000), []
        length = 1 << 20
        for mark, order, user in ("m", (0, length), "ann"), ("m", (length, 0), "ann"), ("n", (0, length), "ann"), ("m", (0, length), "eve"):
            self.spool.asked = []
            file = f"{hashlib.sha256(data).hexdigest()}.{len(data)}.{length}.{mark}"
            for at in order:
                self.number += 1
                part, words = data[at : at + length], f"{COMMAND} {file} {at} exec rmail unc!joe"
                self.spool.parcels[self.number] = parcel(f"{self.number} mysite a!{user} B 2026-11-28 10:00:0{self.number} {len(part)} exec {words}", part)
                self.assertEqual(0, self.deliverer.deliver(self.number))
            [its] = {file_of(it) for it in self.spool.asked if it[0] == "exec"}
            files_of.append(its)
            shutil.rmtree(f"{self.folder}/pieces")
        self.assertEqual(([files_of[0]] * 2, 3), (files_of[:2], len(set(files_of))))

    def test_mail_for_a_domain_behind_the_next_hop(self) -> None:
        """No mailer here gets such an address, because it would carry the mail to the domain."""
        self.put("etc/forward", "a unc\n")
        for addresses, went in ("unc!joe@c.example unc!eve", [("unc", "rmail", "joe@c.example", "eve")]), ("unc!joe@c.example eve", []), ("phs!joe@c.example", []):
            self.spool.asked = []
            self.spool.parcels[1] = parcel(f"1 mysite a!ann B 2026-11-28 10:00:00 5 exec rmail {addresses}")
            self.assertEqual(0, self.deliverer.deliver(1))
            self.assertEqual(went, [it[it.index("--") + 1 :] for it in self.spool.asked if it[0] == "exec"])
            if not went:
                self.assertRegex(self.log[-1], "refused-for-good mysite takes no mail of a for .*!joe@c.example, which is no user of mysite")
        self.assertFalse(os.path.exists(f"{self.folder}/mail"))

    def test_an_address_that_is_an_option_at_the_next_hop(self) -> None:
        self.put("etc/forward", "a unc *\n")
        whys = "-oX, which is no user of unc, would be an option there", "mysite lets no word of rmail begin with a hyphen: -oX"
        for address, why in zip(("unc!-oX", "mysite!-oX"), whys):
            self.spool.parcels[1] = parcel(f"1 mysite a!ann B 2026-11-28 10:00:00 5 exec rmail unc!joe {address}")
            self.assertEqual(0, self.deliverer.deliver(1))
            self.assertIn(f"refused-for-good {why}", self.log[-1])
        self.assertEqual([], [it for it in self.spool.asked if it[0] == "exec"])

    def test_mail_that_is_queued_again_is_the_same_file(self) -> None:
        self.put("etc/forward", "a unc\n")
        text = b"Subject: x\n\n" + bytes((1 << 20) - 20)
        self.spool.parcels[1] = parcel(f"1 mysite a!ann B 2026-11-28 10:00:00 {len(text)} exec rmail unc!joe", text)
        for minute, fails in enumerate(({"exec": SpoolError(3, "uuspool: spool: store")}, {})):
            self.spool.fails = fails
            with mock.patch("uuspool_calls.clock.now", return_value=1795867200 + 60 * minute):
                self.assertEqual(0, self.deliverer.deliver(1))
        asked = [it for it in self.spool.asked if it[0] == "exec"]
        self.assertEqual((3, 1), (len(asked), len({file_of(it) for it in asked})))
        self.assertFalse(os.path.exists(f"{self.folder}/deliver/1"))

    def test_mail_that_is_queued_again_after_a_kill_is_the_same_file(self) -> None:
        """(The kill comes behind the last piece, and then another rule of the site's clock.)"""
        self.put("etc/forward", "a unc\n")
        text = b"Subject: x\n\n" + bytes((1 << 20) - 20)
        for hour in 10, 11:
            self.spool.parcels[1] = parcel(f"1 mysite a!ann B 2026-11-28 {hour}:00:00 {len(text)} exec rmail unc!joe", text)
            with mock.patch.object(self.deliverer, "_finish", side_effect=Stopped):
                self.assertRaises(Stopped, self.deliverer.deliver, 1)
            self.assertEqual([1], deliver.due(self.site, [self.spool.parcels[1].job], clock.now()))
        asked = [it for it in self.spool.asked if it[0] == "exec"]
        self.assertEqual((3, 1), (len(asked), len({file_of(it) for it in asked})))


    def test_a_kill_behind_the_last_piece_and_then_another_piece(self) -> None:
        """Mail that came in two pieces, neither of which was noted as done, is queued again under the same mark or key."""
        self.put("etc/forward", "a unc\n")
        for size, is_one_job in (1_100_000, False), (10_000, True):
            data, asked = b"Subject: x\n\n" + bytes(size), []
            length = size // 2 + 20
            file = f"{hashlib.sha256(data).hexdigest()}.{len(data)}.{length}.m"
            for number, at in (1, 0), (2, length), (1, 0), (2, length):
                part, words = data[at : at + length], f"{COMMAND} {file} {at} exec rmail unc!joe"
                self.spool.parcels[number] = parcel(f"{number} mysite a!ann B 2026-11-28 10:0{number}:00 {len(part)} exec {words}", part)
            for number in 1, 2, 1, 2:
                self.spool.asked = []
                with mock.patch.object(pieces.File, "note_came", side_effect=Stopped), contextlib.suppress(Stopped):
                    self.deliverer.deliver(number)
                asked += [it[2] if is_one_job else file_of(it) for it in self.spool.asked if it[0] == "exec"]
            # (Of two pieces the last one is queued again, under its key.)
            self.assertEqual(({"--once=mysite!2!onward"}, 3) if is_one_job else (1, 4), (set(asked) if is_one_job else len(set(asked)), len(asked)))
            shutil.rmtree(f"{self.folder}/pieces")

    def test_a_failed_delivery_keeps_what_it_noted_of_its_pieces(self) -> None:
        self.put("etc/forward", "a unc\n")
        text = b"Subject: x\n\n" + bytes((1 << 20) - 20)
        self.spool.parcels[1] = parcel(f"1 mysite a!ann B 2026-11-28 10:00:00 {len(text)} exec rmail unc!joe", text)
        ask = self.spool.ask

        def fail_last(*words: str, given: bytes | int = b"") -> str:
            if "--once=mysite!1!onward" in words:
                raise SpoolError(3, "uuspool: spool: store")
            return ask(*words, given=given)

        with mock.patch.object(self.spool, "ask", fail_last):
            self.assertEqual(0, self.deliverer.deliver(1))
        record = records.Tries.read(f"{self.folder}/deliver", "w1", self.spool.parcels[1].job, 0)
        self.assertEqual((True, 1), (record.all_but_one, record.failed))


    def test_a_note_of_before_a_restoration_counts_for_nothing(self) -> None:
        """The spool that was put back may know none of the pieces that were queued before. A note that was written since then counts."""
        self.put("etc/forward", "a unc\n")
        text = b"Subject: x\n\n" + bytes((1 << 20) - 20)
        self.spool.parcels[1] = parcel(f"1 mysite a!ann B 2026-11-28 10:00:00 {len(text)} exec rmail unc!joe", text)
        queued, ask, is_stopped = list[str](), self.spool.ask, True

        def stop_before_last(*words: str, given: bytes | int = b"") -> str:
            is_last = "--once=mysite!1!onward" in words
            if is_last and is_stopped:
                raise Stopped
            queued.append(words[words.index(COMMAND) + 2] if COMMAND in words else "")
            return ask(*words, given=given)

        with mock.patch.object(self.spool, "ask", stop_before_last):
            for times in "", "2 1000 0f\n", "2 1000 0f\n", "2 1000 0f\n2 2000 0e\n":
                self.put("restored", times)
                self.assertRaises(Stopped, self.deliverer.deliver, 1)
            self.assertEqual(["0", "0", "0"], queued)
            is_stopped = False
            self.assertEqual(0, self.deliverer.deliver(1))
        self.assertEqual(["0", "0", "0", "1000000"], queued)

    def test_what_was_handed_on_before_a_restoration_is_handed_on_again(self) -> None:
        """The spool could not note that it was, and then an older one was put back. What a command did isn't done again."""
        self.put("etc/forward", "a unc\n")
        for address, times in ("unc!joe", 2), ("joe", 1):
            self.spool.parcels[1] = parcel(f"1 mysite a!ann B 2026-11-28 10:00:00 5 exec rmail {address}")
            self.put("restored", "")
            self.spool.asked, self.spool.fails = [], {"done": SpoolError(3, "uuspool: spool: store")}
            self.assertRaises(Failure, self.deliverer.deliver, 1)
            self.spool.fails = {}
            for _ in range(2):
                with mock.patch.object(self.deliverer, "_note_done"):
                    self.deliverer.deliver(1)
                self.put("restored", "2 1000 0f\n")
            self.assertEqual(times if address == "unc!joe" else 0, sum(it[0] == "exec" for it in self.spool.asked))
        self.assertEqual(1, len(self.bytes_of("ran").splitlines()))

    def test_a_note_of_an_older_version(self) -> None:
        """It has the mark of the job that brought the last piece, under which the others were queued."""
        self.put("etc/forward", "a unc\n")
        data = b"Subject: x\n\n" + bytes(1_500_000)
        length, file = 1 << 20, f"{hashlib.sha256(data).hexdigest()}.{len(data)}.{1 << 20}.m"
        for number, at in (1, 0), (2, length):
            part = data[at : at + length]
            self.spool.parcels[number] = parcel(f"{number} mysite a!ann B 2026-11-28 10:00:00 {len(part)} exec {COMMAND} {file} {at} exec rmail unc!joe", part)
        note = records.Tries(self.spool.parcels[2].job.line, "w1", 0, 0, 1, all_but_one=True)._asdict()
        files.write_record(f"{self.folder}/deliver/2", {name: it for name, it in note.items() if name not in ("mark", "restored")})
        for number in 1, 2:
            self.assertEqual(0, self.deliverer.deliver(number))
        asked = [it for it in self.spool.asked if it[0] == "exec"]
        self.assertEqual([("2-2026-11-28-10:00:00", "1000000")], [(file_of(it).rpartition(".")[2], it[it.index(COMMAND) + 2]) for it in asked])


class Older(Arrivals):
    """Pieces of an older version, which are 1,000,000 bytes long."""

    def test_pieces_that_came_to_an_older_version(self) -> None:
        data = os.urandom(2 * pieces.SIZE + 5)
        sum_of = hashlib.sha256(data).hexdigest()
        for order in (0, 1, 2), (2, 1, 0):
            folder = f"pieces/a/{sum_of}-123-14"
            for at in order[:2]:
                self.put(f"{folder}/{at}", data[at * pieces.SIZE : (at + 1) * pieces.SIZE])
            self.put(f"{folder}/about", json.dumps({"user": "a!ann", "to": "~/in/x", "size": len(data)}))
            self.put(f"{folder}/whole", b"x")
            at = order[2]
            with memory_file(data[at * pieces.SIZE : (at + 1) * pieces.SIZE]) as content:
                outcome = self.delivery.deliver(self.job((COMMAND, sum_of, str(len(data)), str(at), "~/in/x"), content))
            self.assertEqual((True, True), (outcome.is_last, data == self.bytes_of("public/a/in/x")))

    def test_those_of_which_no_more_comes(self) -> None:
        self.put(f"pieces/a/{SUM}-1-2/1", "x")
        self.put(f"pieces/a/{SUM}-1-2/about", json.dumps({"user": "a!ann", "to": "~/x", "size": 2_500_000}))
        deliver._refuse_unfinished(self.site, aged(30))
        self.assertEqual(["mysite a!ann  refused-for-good send ~/x ~/x: 1 of 3 pieces came, and no other one for 30 days"], self.site.log)
        self.assertEqual(0, refusals.tell(self.site))


def largest(room: int) -> int:
    """How many bytes a file in pieces may have that needs so much of the spool."""
    size = room
    while figures.room_of(size, pieces.SIZE, len(f"{COMMAND} {SUM}.{size}.{pieces.SIZE}.7-x 0 send ~/f ~/g")) > room:
        size -= 1
    return size


class Going(Folder):
    def setUp(self) -> None:
        super().setUp()
        self.spool = StandIn()
        self.site = site(self.folder, self.spool)

    def queue(self, data: bytes, *words: str, notes: outgoing.Notes = outgoing.Notes()) -> list[tuple[str, ...]]:
        self.spool.asked = []
        what = outgoing.Parcelled("duke", "duke!ann", "B", "mysite!7!request", "7-x", ("send", "~/f", "~/g", *words))
        with memory_file(data) as content:
            outgoing.queue(self.site, what, content, notes)
        return self.spool.asked

    def test_a_file_that_grows_while_it_is_read(self) -> None:
        pread, reads = os.pread, 0

        def growing(handle: int, size: int, at: int) -> bytes:
            nonlocal reads
            reads += 1
            if reads > 20:
                raise AssertionError("it is read without end")
            os.ftruncate(handle, at + (4 << 20))
            return pread(handle, size, at)

        with mock.patch("os.pread", side_effect=growing):
            asked = self.queue(bytes((1 << 20) + 1))
        self.assertEqual((["0", "1000000"], "1048577"), ([it[-4] for it in asked], file_of(asked[0]).split(".")[1]))

    def test_a_file_that_is_changed_while_it_is_cut(self) -> None:
        """Its last piece isn't queued, so what went of it is never taken for a whole."""
        pread = os.pread

        def changing(handle: int, size: int, at: int) -> bytes:
            if at == 1_000_000:
                os.pwrite(handle, b"new", 2_000_000)
            return pread(handle, size, at)

        with mock.patch("os.pread", side_effect=changing), self.assertRaisesRegex(Delay, "~/f was changed while it was queued"):
            self.queue(bytes(2_500_000))
        self.assertEqual(["0", "1000000"], [it[-4] for it in self.spool.asked])

    def test_a_file_for_which_there_is_no_room_is_not_read(self) -> None:
        """It may have 8 TiB of nothing."""
        self.site.settings = self.site.settings._replace(limit=4_000_000)
        os.makedirs(os.path.dirname(self.site.settings.spool), exist_ok=True)
        with mock.patch("os.pread", side_effect=AssertionError), self.assertRaisesRegex(Refusal, "which takes 3800000 of a file at most"):
            self.queue(bytes(4_000_001))

    def test_a_stop_ends_the_reading_of_a_file(self) -> None:
        with mock.patch.object(self.site.session.processes, "check", side_effect=Stopped), self.assertRaises(Stopped):
            self.queue(bytes(2_500_000))
        self.assertEqual([], self.spool.asked)

    def test_no_piece_is_queued_without_room_for_all(self) -> None:
        self.site.settings = self.site.settings._replace(limit=4_000_000)
        spool = self.site.settings.spool
        os.makedirs(os.path.dirname(spool), exist_ok=True)
        large, small = largest(3_800_000), largest(1_752_000)
        for pages, free, size, why in (
            (0, 0, large, ""), (0, 0, large + 1, "needs 3800001 of the spool of mysite, which takes 3800000 of a file at most: its limit is 4000000"), (900, 400, small, ""),
            (900, 400, small + 1, f"/f has {small + 1} bytes and needs 1752001 of the spool of mysite, which has room for 1752000: it goes once calls"), (999, 0, 1_048_577, "has room for 0:"),
        ):  # fmt: skip
            with open(spool, "wb") as file:
                file.write(bytes(36) + free.to_bytes(4, "big"))
                file.truncate(pages * 4096)
            if not why:
                self.assertEqual(-(-size // 1_000_000), len(self.queue(bytes(size))))
                continue
            with self.assertRaisesRegex(Refusal if "at most" in why else Delay, why):
                self.queue(bytes(size))
            self.assertEqual([], self.spool.asked)
        self.assertEqual(1, len(self.queue(bytes(1 << 20))))

    def test_small_pieces_need_more_room_than_their_bytes(self) -> None:
        # (What the program's file really grew by.)
        for size, length, words, grew in (1_000_000, 1000, 171, 1_265_664), (1_000_000, 1000, 2156, 5_173_248), (2_100_000, 2100, 171, 4_345_856):
            self.assertTrue(grew <= figures.room_of(size, length, words) <= grew * 1.1)
        self.put("etc/calls/duke", "piece = 1000\n")
        self.site.settings = self.site.settings._replace(limit=4_000_000)
        with self.assertRaisesRegex(Refusal, "/f has 3500000 bytes and needs 4[0-9]* of the spool"):
            self.queue(bytes(3_500_000))
        self.assertEqual([], self.spool.asked)
        self.assertEqual(2500, len(self.queue(bytes(2_500_000))))

    def test_what_waits_needs_no_room_again(self) -> None:
        data = bytes(2_500_000)
        asked = self.queue(data)
        for number, words in enumerate(asked[:2], 1):
            self.spool.parcels[number] = parcel(f"{number} duke duke!ann B 2026-11-28 10:00:00 5 exec {' '.join(words[4:])}")
        self.site.settings = self.site.settings._replace(limit=600_000)
        self.assertEqual(asked[2:], self.queue(data))

    def test_none_but_the_last_piece_is_queued_again_once_all_others_were(self) -> None:
        """They may have gone to a neighbour with plain Taylor UUCP, which gets them as one job, or were moved or refused. The spool knows
        the last one by its key."""
        data, kept = bytes(2_500_000), list[str]()
        notes = outgoing.Notes(partial(kept.append, "begins"), ends=lambda last: kept.append("ends"), has_ended=lambda: kept[-1:] == ["ends"])
        asked = self.queue(data, notes=notes)
        self.assertEqual((["begins", "ends"], [False, False, True]), (kept, ["--once=mysite!7!request" in it for it in asked]))
        self.assertEqual(asked[2:], self.queue(data, notes=notes))
        self.spool.parcels = {number: parcel(f"{number} duke duke!ann B 2026-11-28 10:00:00 5 exec {' '.join(asked[number][4 + number // 2 :])}") for number in (0, 2)}
        self.assertEqual([], self.queue(data, notes=notes), "the last one waits")
        self.spool.parcels.clear()
        self.assertEqual(["begins", "ends"], kept)
        kept[:] = ["begins"]
        self.assertEqual(asked, self.queue(data, notes=notes), "after a stop before the last one")

    def test_a_single_piece_is_queued_once(self) -> None:
        self.assertIn("--once=mysite!7!request", self.queue(b"x", "-m")[0])

    def test_as_a_job_or_in_pieces(self) -> None:
        self.assertEqual([("send", "-gB", "--once=mysite!7!request", "--", "duke", "~/f", "~/g")], self.queue(bytes(1 << 20)))
        data = bytes((1 << 20) + 1)
        self.assertEqual(["0", "1000000"], [it[-4] for it in self.queue(data)])
        self.put("etc/calls/duke", "piece = 100_000\n")
        asked = self.queue(bytes(250_000))
        sums = hashlib.sha256(bytes(250_000)).hexdigest()
        file = f"{sums}.250000.100000.7-x"
        keys = (), (), ("--once=mysite!7!request",)
        self.assertEqual([("exec", "-gB", *key, "--", "duke", COMMAND, file, str(at), "send", "~/f", "~/g") for at, key in zip((0, 100_000, 200_000), keys)], asked)
        for number, user in (1, "duke!ann"), (2, "duke!eve"):
            waits = LINE.replace("ann", user).replace("rmail joe", f"{COMMAND} {file} {(number - 1) * 100_000} send ~/f ~/g")
            self.spool.parcels[number] = parcel(waits)
        self.assertEqual(["100000", "200000"], [it[it.index(COMMAND) + 2] for it in self.queue(bytes(250_000))])  # after a stop
        self.assertEqual(1, len(self.queue(bytes(100_000))))
        self.assertEqual([(COMMAND, "-m")], [(it[5], it[-1]) for it in self.queue(b"", "-m")])


class Stopping(StandIn):
    """A spool that queues jobs, once under each key, and is stopped before or behind a step."""

    def __init__(self, *parcels: Parcel) -> None:
        super().__init__(parcels)
        self.keys: dict[str, tuple[object, ...]] = {}
        self.steps = 0  # until a stop

    def step(self) -> None:
        """A stop may come now."""
        self.steps -= 1
        if self.steps == 0:
            raise Stopped

    def ask(self, *words: str, given: bytes | int = b"") -> str:
        data = given if isinstance(given, bytes) else os.pread(given, 1 << 21, 0)
        user, kind, _, *rest = words
        key = rest.pop(0) if rest[0].startswith("--once=") else ""
        self.step()
        job = (user, kind, *rest, data)
        if key and self.keys.setdefault(key, job) != job:
            raise SpoolError(1, "refused Differs")
        if not key or key not in self.asked:
            self.asked.append(key)  # type: ignore[arg-type]
            self.next += 1
            line = f"{self.next} {rest[1]} {user.removeprefix('--as=')} B 2026-11-28 10:00:00 {len(data)} {kind} {' '.join(rest[2:])}"
            self.parcels[self.next] = Parcel.read(line.encode() + b"\n" + data)
        self.step()
        return f"job {self.next}"

    def kill(self, job: Job) -> bool:
        self.step()
        self.parcels.pop(job.number, None)
        self.step()
        return True


class Changed(Folder):
    """A requested file that is changed after a stop, or two, while it is queued."""

    CONTENTS = bytes(90), bytes(250), bytes(200) + b"x", b"y" * 301  # (of these only the first one isn't in pieces)

    def setUp(self) -> None:
        super().setUp()
        self.enterContext(mock.patch.object(outgoing.carriers, "values_of", return_value={"piece": 100}))
        self.enterContext(mock.patch("os.fsync"))
        self.request = parcel("7 mysite duke!ann B 2026-11-28 10:00:00 0 request ~/f ~/g", b"")

    def queue(self, data: bytes, steps: int = 0) -> bool:
        """Queues these bytes, up to a stop. Whether that came."""
        self.spool.steps = steps
        replace = files.replace

        def replaced(*words: Any) -> None:
            self.spool.step()
            replace(*words)
            self.spool.step()

        name = "mysite!7!2026-11-28.10:00:00"
        with memory_file(data) as content, mock.patch.object(files, "replace", replaced), contextlib.suppress(Stopped):
            job = Delivered("send", ("~/f", "~/g"), content, "duke", "duke!ann", name, "B")
            deliver.Deliverer(self.site)._queue("duke", job, "request")
            return False
        return True

    def begin(self) -> None:
        """A new site, with nothing but the request."""
        shutil.rmtree(f"{self.folder}/deliver", ignore_errors=True)
        self.spool, self.gone = Stopping(self.request), list[Parcel]()
        self.site = site(self.folder, self.spool)

    def go(self) -> None:
        """All that waits for the neighbour goes there."""
        self.gone += [self.spool.parcels.pop(job.number) for job in self.spool.waiting("duke")]

    def expect_one(self, contents: Sequence[bytes], *how: object) -> None:
        """One of these contents is whole, and pieces of others are only at the neighbour."""
        waiting = [self.spool.parcels[job.number] for job in self.spool.waiting("duke")]
        there = {it.job.number: it for it in (*self.gone, *waiting)}
        wholes = list(Whole.all_of([it.job for it in there.values()]))
        self.assertEqual(1, len(wholes), how)
        self.assertIn(b"".join(there[part.number].data for part in wholes[0].parts), contents, how)
        left = {it.job.number for it in waiting} - {part.number for part in wholes[0].parts}
        self.assertEqual(set(), left, how)

    def test_it_comes_whole_and_once(self) -> None:
        for first, second in itertools.permutations(self.CONTENTS, 2):
            for goes in False, True:
                for steps in itertools.count(1):
                    self.begin()
                    is_stopped = self.queue(first, steps)
                    if goes:
                        self.go()
                    self.assertFalse(self.queue(second))
                    self.expect_one((first, second), len(first), len(second), goes, steps)
                    self.assertFalse(self.queue(first))
                    self.expect_one((first, second), len(first), len(second), goes, steps)
                    if not is_stopped:
                        break

    def test_it_comes_whole_and_once_though_it_is_changed_twice(self) -> None:
        first, second, third = self.CONTENTS[1:]
        for steps, more, goes in itertools.product(range(1, 16), range(1, 20, 2), (False, True)):
            self.begin()
            self.queue(first, steps)
            if goes:
                self.go()
            self.queue(second, more)
            self.assertFalse(self.queue(third))
            self.expect_one((first, second, third), steps, more, goes)
