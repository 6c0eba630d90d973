"""Copies of folders, the turn, and which copies stay."""
import errno
import fcntl
import os
import pwd
import resource
import socket
import subprocess
import time
import unittest
from unittest import mock

from uuspool_calls import backup, copies, settings, source, turn
from uuspool_calls.errors import Failure

from .standins import SITE, Folder, Quiet


class Copies(Folder):
    def copied(self, path: str, *, owners: tuple[int, ...] = (), most: int = 1000) -> tuple[list[str], list[str]]:
        """What a copy of a folder has, and what isn't copied."""
        target = copies.Target(f"{self.folder}/copy")
        with copies.Copier(owners) as copier:
            copier._most = most
            copier.take(f"{self.folder}/{path}", target)
            copier.finish()
            left = [it.removeprefix(f"{self.folder}/") for it in copier.left_out]
        target.sync()
        target.close()
        return sorted(os.path.relpath(f"{at}/{name}", f"{self.folder}/copy") for at, _, names in os.walk(f"{self.folder}/copy") for name in names), left

    def test_files_of_one_moment(self) -> None:
        self.put("s/a", "before", 0o640)
        self.put("s/b/c", "c")
        os.utime(f"{self.folder}/s/a", (1000, 1000))
        target = copies.Target(f"{self.folder}/copy")
        with copies.Copier() as copier:
            copier.take(f"{self.folder}/s", target)
            os.rename(self.put("s/new", "after"), f"{self.folder}/s/a")
            os.remove(f"{self.folder}/s/b/c")
            copier.finish()
        target.close()
        self.assertEqual((b"before", b"c"), (self.bytes_of("copy/a"), self.bytes_of("copy/b/c")))
        seen = os.stat(f"{self.folder}/copy/a")
        self.assertEqual((0o640, 1000), (seen.st_mode & 0o777, int(seen.st_mtime)))

    def test_files_without_folders(self) -> None:
        self.put("s/a", "a")
        self.put("s/b/c", "c")
        target = copies.Target(f"{self.folder}/copy")
        with copies.Copier() as copier:
            copier.take_files(f"{self.folder}/s", target)
            copier.finish()
        target.close()
        self.assertEqual((["a"], [f"{self.folder}/s/b: is a folder"]), (os.listdir(f"{self.folder}/copy"), copier.left_out))

    def test_folders_without_end(self) -> None:
        self.put("s/a", "a")
        at = os.open(f"{self.folder}/s", os.O_RDONLY)
        for _ in range(1200):
            os.mkdir("d", dir_fd=at)
            inner = os.open("d", os.O_RDONLY, dir_fd=at)
            os.close(at)
            at = inner
        os.close(at)
        found, left = self.copied("s")
        self.assertEqual((["a"], 1), (found, len(left)))
        self.assertTrue(left[0].endswith("/d: is in too many folders"), left)
        subprocess.run(["rm", "-rf", f"{self.folder}/s"], check=True)

    def test_holes_stay_holes(self) -> None:
        for name, place in ("a", 32 << 20), ("b", 0):
            with open(self.put(f"s/{name}", "begin"), "r+b") as file:
                file.truncate(64 << 20)
                file.seek(place)
                file.write(b"data")
        self.copied("s")
        for name, place, begin in ("a", 32 << 20, b"begin"), ("b", 0, b"datan"):
            with open(f"{self.folder}/copy/{name}", "rb") as file:
                self.assertEqual(begin, file.read(5))
                file.seek(place)
                self.assertEqual(b"data", file.read(4))
            seen = os.stat(f"{self.folder}/copy/{name}")
            self.assertEqual((64 << 20, True), (seen.st_size, seen.st_blocks < 1000))

    def test_a_file_that_becomes_shorter_is_left_out(self) -> None:
        self.put("s/A", "A")  # (which is copied last)
        lseek, pread, block = os.lseek, os.pread, 1 << 20
        for in_read, at in (True, 0), (True, block), (False, 0):
            path = self.put("s/a", b"x" * (3 * block))

            def shorten(is_now: bool, path: str = path) -> None:
                if is_now and os.path.getsize(path) > block:
                    os.truncate(path, 10)

            def seek(handle: int, place: int, how: int, is_now: bool = not in_read) -> int:
                found = lseek(handle, place, how)
                shorten(is_now and how == os.SEEK_DATA)
                return found

            def read(handle: int, count: int, place: int, at: int = at, is_now: bool = in_read) -> bytes:
                shorten(is_now and place >= at)
                return pread(handle, count, place)

            with mock.patch("os.lseek", seek), mock.patch("os.pread", read):
                self.assertEqual((["A"], ["s/a: became shorter while it was copied"]), self.copied("s"))
            subprocess.run(["rm", "-rf", f"{self.folder}/copy"], check=True)

    def test_a_file_in_a_hole_of_which_it_becomes_shorter(self) -> None:
        os.truncate(self.put("s/a"), 1 << 20)
        lseek = os.lseek

        def seek(handle: int, place: int, how: int) -> int:
            os.truncate(f"{self.folder}/s/a", 10)
            return lseek(handle, place, how)

        with mock.patch("os.lseek", seek):
            self.assertEqual(([], ["s/a: became shorter while it was copied"]), self.copied("s"))

    def test_a_socket_is_left_out(self) -> None:
        self.put("s/a", "a")
        with socket.socket(socket.AF_UNIX) as its:
            its.bind(f"{self.folder}/s/socket")
            self.assertEqual((["a"], ["s/socket: No such device or address"]), self.copied("s"))

    def test_modes_and_owners(self) -> None:
        self.put("s/b/c", "c")
        os.chmod(f"{self.folder}/s", 0o750)
        os.chmod(f"{self.folder}/s/b", 0o500)
        for path in "s/b", "s/b/c":
            self.give(f"{self.folder}/{path}")
        self.copied("s")
        found = [os.stat(f"{self.folder}/copy/{path}") for path in (".", "b", "b/c")]
        self.assertEqual([(0o750, 0), (0o500, 1), (0o644, 1)], [(it.st_mode & 0o777, it.st_uid) for it in found])

    def test_more_files_than_may_be_open(self) -> None:
        for number in range(20):
            self.put(f"s/{number}", str(number))
        self.assertEqual((sorted(map(str, range(20))), []), self.copied("s", most=12))
        self.assertEqual([str(number).encode() for number in range(20)], [self.bytes_of(f"copy/{number}") for number in range(20)])

    def test_no_link_is_followed(self) -> None:
        self.put("secret", "kept")
        self.put("s/a", "a")
        os.symlink(f"{self.folder}/secret", f"{self.folder}/s/link")
        os.symlink(self.folder, f"{self.folder}/s/folder")
        os.link(f"{self.folder}/secret", f"{self.folder}/s/hard")
        os.mkfifo(f"{self.folder}/s/fifo")
        self.assertEqual((["a", "link"], ["s/fifo: is no regular file with one name", "s/hard: is no regular file with one name"]), self.copied("s"))
        self.assertEqual((True, self.folder), (os.path.islink(f"{self.folder}/copy/link"), os.readlink(f"{self.folder}/copy/folder")))
        os.symlink(f"{self.folder}/s", f"{self.folder}/t")
        with copies.Copier() as copier:
            copier.take(f"{self.folder}/t", copies.Target(f"{self.folder}/other"))
            self.assertEqual((f"{self.folder}/t: Not a directory", []), (copier.left_out[0], os.listdir(f"{self.folder}/other")))

    def test_links_and_closed_folders_stay_their_users(self) -> None:
        self.put("s/closed/a", "a")
        self.give(f"{self.folder}/s/closed")
        os.chmod(f"{self.folder}/s/closed", 0)
        os.symlink("a", f"{self.folder}/s/link")
        os.chown(f"{self.folder}/s/link", 1, 1, follow_symlinks=False)
        os.chmod(self.folder, 0o755)
        target = copies.Target(f"{self.folder}/copy")
        with copies.Copier((1,), pwd.getpwuid(1).pw_name) as copier:
            copier.take(f"{self.folder}/s", target)
        target.sync()
        self.assertEqual([f"{self.folder}/s/closed: Permission denied"], copier.left_out)
        self.assertEqual([(1, 1)] * 2, [(it.st_uid, it.st_gid) for it in map(os.lstat, (f"{self.folder}/copy/closed", f"{self.folder}/copy/link"))])

    def test_files_of_another_user(self) -> None:
        self.put("s/a", "a")
        self.give(self.put("s/b", "b"))
        self.assertEqual((["a"], ["s/b: belongs to user 1"]), self.copied("s", owners=(0,)))

    def test_no_file_is_overwritten(self) -> None:
        os.symlink(self.put("victim", "kept"), f"{self.folder}/link")
        target, source = copies.Target(f"{self.folder}/copy"), os.open(self.put("a", "a"), os.O_RDONLY)
        os.symlink(f"{self.folder}/victim", f"{self.folder}/copy/a")
        with self.assertRaises(FileExistsError):
            target.put("a", source)
        with self.assertRaises(FileExistsError):
            copies.Target(f"{self.folder}/link")
        os.close(source)
        target.close()
        self.assertEqual(b"kept", self.bytes_of("victim"))

    def test_limits_of_open_files(self) -> None:
        before = resource.getrlimit(resource.RLIMIT_NOFILE)
        try:
            resource.setrlimit(resource.RLIMIT_NOFILE, (200, before[1]))
            with copies.Copier() as copier:
                self.assertEqual(before[1] - 64, copier._most)
        finally:
            resource.setrlimit(resource.RLIMIT_NOFILE, before)


    @unittest.skipIf(os.geteuid(), "only root makes a copy as another user")
    def test_what_is_made_in_a_user_s_folder_is_made_as_that_user(self) -> None:
        """Who may put something else there before it is given away, so nothing is."""
        self.put("from/x", "x")
        os.symlink("nowhere", f"{self.folder}/from/link")
        os.chmod(self.folder, 0o755)
        os.mkdir(f"{self.folder}/to")
        self.give(f"{self.folder}/to")
        parent, user = os.open(f"{self.folder}/to", os.O_RDONLY), pwd.getpwuid(1)
        with mock.patch.object(os, "chown", side_effect=AssertionError), mock.patch.object(os, "fchown", side_effect=AssertionError):
            made = copies.Target("made", parent, user.pw_name)
            with copies.Copier() as copier:
                copier.take(f"{self.folder}/from", made.folder("below"))
                copier.finish()
            made.sync()
            made.close()
        os.close(parent)
        its = [os.lstat(f"{self.folder}/to/made{it}") for it in ("", "/below", "/below/x", "/below/link")]
        self.assertEqual([user.pw_uid] * 4, [it.st_uid for it in its])


class Turns(Folder):
    def test_who_has_it(self) -> None:
        path = f"{self.folder}/spool.db"
        with turn.Turn(path, 1) as first:
            first.wait_for_it(time.sleep)
            self.assertEqual((b"%10d\n" % os.getpid(), 0o600), (self.bytes_of("spool.db-lock"), os.stat(f"{path}-lock").st_mode & 0o777))
            with turn.Turn(path, 0) as second, self.assertRaisesRegex(Failure, f"no turn within 0 seconds: process {os.getpid()} has {path}-lock"):
                second.wait_for_it(time.sleep)
        with turn.Turn(path, 0) as third:
            third.wait_for_it(time.sleep)

    def test_who_has_it_is_read_from_the_open_file(self) -> None:
        path = f"{self.folder}/spool.db"
        with turn.Turn(path, 1) as first, turn.Turn(path, 0) as second:
            first.wait_for_it(time.sleep)
            os.rename(f"{path}-lock", f"{self.folder}/before")
            os.symlink(self.put("secret", "1234\n"), f"{path}-lock")
            with self.assertRaisesRegex(Failure, f"process {os.getpid()} has"):
                second.wait_for_it(time.sleep)

    def test_another_users_folder_keeps_its_lock(self) -> None:
        self.give(self.folder)
        with turn.Turn(f"{self.folder}/spool.db", 0, pwd.getpwuid(1).pw_name):
            self.assertEqual((1, 1), os.stat(f"{self.folder}/spool.db-lock")[4:6])

    def test_a_folder_of_roots_gets_no_lock_of_another_user(self) -> None:
        self.put("spool.db", "x", 0o600)
        os.chmod(self.folder, 0o755)
        if os.geteuid():
            self.skipTest("only root acts as another user")
        with self.assertRaises(PermissionError):
            turn.Turn(f"{self.folder}/spool.db", 0, pwd.getpwuid(1).pw_name)
        self.put("spool.db-lock", "", 0o666)
        with turn.Turn(f"{self.folder}/spool.db", 0, pwd.getpwuid(1).pw_name) as its, self.assertRaises(PermissionError):
            with its.database(f"{self.folder}/spool.db", time.sleep):
                self.fail("another user opens root's file")

    def test_a_link_in_its_place(self) -> None:
        os.symlink(self.put("victim", "kept"), f"{self.folder}/spool.db-lock")
        with self.assertRaises(OSError):
            turn.Turn(f"{self.folder}/spool.db", 0)
        os.remove(f"{self.folder}/spool.db-lock")
        os.symlink(f"{self.folder}/nowhere", f"{self.folder}/spool.db-lock")
        with self.assertRaises(OSError):
            turn.Turn(f"{self.folder}/spool.db", 0)

    def test_the_lock_of_the_database(self) -> None:
        path = self.put("spool.db", "x")
        with turn.Turn(path, 0) as its, its.database(path, time.sleep) as handle:
            self.assertEqual(b"x", os.pread(handle, 9, 0))
            with self.assertRaisesRegex(Failure, "is in use by another program, such as sqlite3"), its.database(path, time.sleep):
                self.fail("two have it")
            with open(path, "rb+") as other, self.assertRaises(OSError):
                fcntl.lockf(other, fcntl.LOCK_EX | fcntl.LOCK_NB, 1, 0x40000002)


class Journal(Folder):
    def expect(self, why: str, owner: str = "") -> None:
        site = mock.Mock(_settings=mock.Mock(spool=f"{self.folder}/spool.db"), _owner=owner)
        if not why:
            backup.Backup._expect_no_journal(site)
            return
        with self.assertRaisesRegex(Failure, f"^{self.folder}/spool.db-journal{why}"):
            backup.Backup._expect_no_journal(site)

    def test_what_sqlite_left(self) -> None:
        self.expect("")
        for text, why in ("", ""), ("\0" * 9, ""), ("x", " was left by sqlite3"):
            self.put("spool.db-journal", text)
            self.expect(why)

    def test_a_link_or_a_file_of_roots_in_its_place(self) -> None:
        path, owner = f"{self.folder}/spool.db-journal", pwd.getpwuid(1).pw_name if os.geteuid() == 0 else ""
        os.chmod(self.folder, 0o755)
        os.mkfifo(f"{self.folder}/device")  # (which reads as nothing)
        for name in "device", self.put("empty", ""):
            os.symlink(name, path)
            self.expect(f", a file of sqlite3, can't be read: Too many levels of symbolic links: have {owner} move it away", owner)
            os.remove(path)
        if owner:
            self.put("spool.db-journal", "", 0o600)
            self.expect(", a file of sqlite3, can't be read: Permission denied", owner)


class Noted(Folder):
    def test_a_copy_of_which_the_log_has_no_line(self) -> None:
        """A full disk keeps it from the log. Who may fill that mustn't keep older copies, too."""
        found = mock.Mock(log=f"{self.folder}/log", zone="UTC0")
        its = mock.Mock(_settings=found, _session=Quiet(self.folder), _owner="", faults=[], left_out=[])
        backup.Backup._note(its, "mark word path")
        self.assertEqual(([], 1), (its.left_out, self.bytes_of("log").count(b" copied mark word path\n")))
        with mock.patch("os.write", side_effect=OSError(errno.ENOSPC, "full")):
            backup.Backup._note(its, "mark word path")
        self.assertEqual([f"{self.folder}/log lacks the line of this copy, so all jobs of it wait again once it is put back"], its.left_out)
        self.assertEqual([], its.faults)


class Kept(Folder):
    def test_names(self) -> None:
        for name, kept in (
            ("duke.json", True), ("7", True), ("keys", True), ("3.untold", True), ("a.answer.b.json", True), ("x.lock", False), (".lock", False), ("7.works", False),
            ("radio.port", False), ("duke.answer.3", False), ("duke.waits", False), (".duke.json.new", False), ("new", True),
        ):  # fmt: skip
            self.assertEqual(kept, source.is_kept(name), name)

    def test_which_copies_stay(self) -> None:
        names = [f"mysite.2026110{day}T000000Z{end}" for day, end in ((1, ""), (2, ""), (2, ".2"), (2, ".10"), (3, ""))]
        for name in *names, "mysite.b.20261101T000000Z", "other.20261101T000000Z", "mysite.20261101T000000Z.new", "x":
            os.makedirs(f"{self.folder}/copies/{name}/spool")
        os.symlink("/etc", f"{self.folder}/copies/mysite.20251101T000000Z")
        os.chmod(f"{self.folder}/copies", 0o700)
        with backup.Place(f"{self.folder}/copies") as place:
            self.assertEqual([], place.remove_old(names[-1], 2, os.geteuid()))
            left = sorted(os.listdir(place.path))
            self.assertEqual(sorted([*names[-2:], "mysite.b.20261101T000000Z", "other.20261101T000000Z", "mysite.20261101T000000Z.new", "x", "mysite.20251101T000000Z"]), left)
            with place.begun("mysite.20261103T000000Z") as (chosen, _):
                place.remove_dead()
                self.assertEqual("mysite.20261103T000000Z.2", chosen)
                self.assertEqual(["mysite.20261103T000000Z.2.new"], [it for it in os.listdir(place.path) if it.endswith(".new")])
                place.keep(chosen)
            self.assertIn("mysite.20261103T000000Z.2", os.listdir(place.path))
            with self.assertRaises(KeyError), place.begun("mysite.20261104T000000Z"):
                raise KeyError
            self.assertFalse([it for it in os.listdir(place.path) if "1104" in it])

    def test_copies_of_a_later_day_are_the_oldest(self) -> None:
        names = [f"mysite.{day}T000000Z" for day in (20261101, 20261102, 20261103, 20370101, 20370102)]
        for name in names:
            os.makedirs(f"{self.folder}/copies/{name}/spool")
        with backup.Place(f"{self.folder}/copies") as place:
            for kept, left in (4, [0, 1, 2, 4]), (2, [1, 2]), (1, [2]):
                place.remove_old(names[2], kept, os.geteuid())
                self.assertEqual([names[at] for at in left], sorted(os.listdir(place.path)), kept)

    def test_copies_of_another_user_stay(self) -> None:
        names = [f"mysite.2026110{day}T000000Z" for day in range(1, 6)]
        for name in names:
            os.makedirs(f"{self.folder}/copies/{name}/spool")
        self.give(f"{self.folder}/copies/{names[0]}/spool")
        os.rename(f"{self.folder}/copies/{names[1]}/spool", f"{self.folder}/copies/{names[1]}/mail")
        os.rename(f"{self.folder}/copies/{names[2]}/spool", f"{self.folder}/elsewhere")
        os.symlink(f"{self.folder}/elsewhere", f"{self.folder}/copies/{names[2]}/spool")
        with backup.Place(f"{self.folder}/copies") as place, mock.patch.object(place, "_remove") as remove:
            self.assertEqual([names[3]], place.remove_old(names[4], 1, os.geteuid()))
            remove.assert_called_once_with(names[3])

    @unittest.skipIf(os.geteuid(), "only root copies the spool of another user")
    def test_whose_copies_go_is_asked_once(self) -> None:
        """The user of the settings may put a folder of somebody else in the place of the spool's meanwhile."""
        os.makedirs(f"{self.folder}/copies", 0o700)
        os.mkdir(f"{self.folder}/s")
        user = pwd.getpwuid(1).pw_name
        with mock.patch.object(backup, "owner_of", return_value=user), backup.Place(f"{self.folder}/copies") as place:
            its = backup.Backup(Quiet(self.folder), settings.read(SITE.format(self.folder)), place)
            self.assertEqual(1, its.number)
            with self.assertRaisesRegex(Failure, f" was {user}'s, and is now root's: try again"):
                its.make()

    def test_how_many_stay(self) -> None:
        for words in ["-k", "0"], ["-k", ""], ["-k", "-1"], ["-k", "01"], ["-k", "1x"], ["-k", "1", "-k", ""]:
            with self.assertRaisesRegex(Failure, "^usage: "):
                backup.run(Quiet(self.folder), [*words, f"{self.folder}/copies"])
        self.assertFalse(os.path.exists(f"{self.folder}/copies"))

    def test_a_folder_of_somebody_else(self) -> None:
        os.mkdir(f"{self.folder}/copies")
        for mode in 0o770, 0o707:
            os.chmod(f"{self.folder}/copies", mode)
            with self.assertRaisesRegex(Failure, "others may write"):
                backup.Place(f"{self.folder}/copies")
        os.chmod(f"{self.folder}/copies", 0o755)
        backup.Place(f"{self.folder}/copies").__exit__()
        self.give(f"{self.folder}/copies")
        with self.assertRaisesRegex(Failure, "belongs to another user"):
            backup.Place(f"{self.folder}/copies")
