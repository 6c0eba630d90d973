"""The public folder, while somebody puts links there, and where mail may go."""
import contextlib
import os
import subprocess
import time
from functools import partial
from unittest import mock

from uuspool_calls import envelope, forward, public
from uuspool_calls.errors import Delay, Refusal
from uuspool_calls.files import memory_file
from uuspool_calls.jobs import Delivered
from uuspool_calls.processes import Child

from .standins import Folder, parcel


class Public(Folder):
    def setUp(self) -> None:
        super().setUp()
        os.mkdir(f"{self.folder}/public")
        os.mkdir(f"{self.folder}/secret")
        self.public = public.Public(f"{self.folder}/public", "mysite")

    def put_file(self, path: str, data: bytes = b"x") -> str:
        with memory_file(data) as content:
            return self.public.put(path, content)

    def test_paths(self) -> None:
        for path in "~/a", "a", "~/a/b.c", "1$(id)", "~/a b":
            self.assertIsNotNone(public.inside(path), path)
        for path in "/etc/x", "~/../x", "~/.ssh", "~ann/x", "~/a//b", "~/a/", "~/", "", "a/./b", "a/..", "~/~/..", "~/\\../x", "~/a'b", '~/".."/x', "~/a\\b", "~/a\0b", "~/\x1b[2J", "~/a\n":
            self.assertIsNone(public.inside(path), path)

    def test_the_mark_of_a_neighbours_folder_is_newer_than_its_files(self) -> None:
        its = public.Public(f"{self.folder}/public", "mysite", "duke")
        for name in "x", "y":
            with memory_file(b"x") as content:
                its.put(name, content)
            seen = [os.stat(f"{self.folder}/public/duke/{it}").st_mtime for it in (".uuspool", name)]
            self.assertGreater(seen[0], seen[1] + 86400)
            os.utime(f"{self.folder}/public/duke/.uuspool", (1, 1))

    def test_the_first_two_files_of_a_neighbour_come_at_once(self) -> None:
        its, is_marked = public.Public(f"{self.folder}/public", "mysite", "duke"), public._is_marked

        def look_before(folder: int) -> bool:
            looks.side_effect = is_marked
            with memory_file(b"x") as content:
                its.put("x", content)
            return False

        with mock.patch.object(public, "_is_marked", side_effect=look_before) as looks, memory_file(b"y") as content:
            its.put("y", content)
        self.assertEqual([".uuspool", "x", "y"], sorted(os.listdir(f"{self.folder}/public/duke")))
        self.give(f"{self.folder}/public/duke/.uuspool")
        with self.assertRaisesRegex(Delay, "~/z cannot be written"), memory_file(b"z") as content:
            its.put("~/z", content)

    def test_what_came_to_the_folder_before_there_was_such_a_neighbour(self) -> None:
        """It would look as if the neighbour had brought it."""
        for path in "~/duke/a/x", "~/unc/x":
            self.put_file(path)
        os.remove(f"{self.folder}/public/unc/x")  # (as what removes old files leaves folders)
        for name in "duke", "unc", "phs":
            its = public.Public(f"{self.folder}/public", "mysite", name)
            self.assertEqual(name == "duke", public.has_files_of_others(f"{self.folder}/public/{name}"))
            with memory_file(b"y") as content:
                if name == "duke":
                    with self.assertRaisesRegex(Delay, "public/duke, to which files of duke come, has files that it did not bring"):
                        its.put("~/y", content)
                    os.rename(f"{self.folder}/public/duke/a/x", f"{self.folder}/public/x")
                self.assertEqual(["~/y", "~/z"], [its.put(it, content) for it in ("~/y", "~/z")])

    def test_folders_in_each_other_without_end(self) -> None:
        """The spool's user makes them, and root's check looks there."""
        os.makedirs(f"{self.folder}/public/duke")
        folder = os.open(f"{self.folder}/public/duke", os.O_RDONLY)
        for _ in range(1100):
            os.mkdir("a", dir_fd=folder)
            before, folder = folder, os.open("a", os.O_RDONLY, dir_fd=folder)
            os.close(before)
        os.close(folder)
        self.addCleanup(subprocess.run, ["rm", "-rf", f"{self.folder}/public/duke"], check=True)
        self.assertTrue(public.has_files_of_others(f"{self.folder}/public/duke"))

    def test_the_mark_stays_newer_than_what_came_while_the_clock_was_ahead(self) -> None:
        its, now = public.Public(f"{self.folder}/public", "mysite", "duke"), time.time()
        with memory_file(b"x") as content:
            with mock.patch.object(public.clock, "now", return_value=now + 30 * 86400):
                its.put("x", content)
            before = os.stat(f"{self.folder}/public/duke/.uuspool").st_mtime
            its.put("y", content)
        self.assertEqual((True, before), (before > now + 31 * 86400, os.stat(f"{self.folder}/public/duke/.uuspool").st_mtime))

    def test_no_settings_come(self) -> None:
        for path in "~/uuspool.toml", "~/a/uuspool.toml", "uuspool.toml", "~/uuspool.toml/x":
            with self.assertRaisesRegex(Refusal, "mysite takes no file uuspool.toml"):
                self.put_file(path)
        self.assertEqual([], os.listdir(f"{self.folder}/public"))
        self.put_file("~/a/uuspool.toml.txt")

    def test_files_and_folders_are_made(self) -> None:
        self.put_file("~/a/b/c", b"bytes")
        self.assertEqual(b"bytes", self.bytes_of("public/a/b/c"))
        modes = [os.stat(f"{self.folder}/public/{it}").st_mode & 0o777 for it in ("a", "a/b", "a/b/c")]
        self.assertEqual([0o755, 0o755, 0o644], modes)
        self.put_file("~/a/b/c", b"new")
        self.assertEqual(b"new", self.bytes_of("public/a/b/c.2"))
        self.assertEqual(["c", "c.2"], sorted(os.listdir(f"{self.folder}/public/a/b")))

    def test_no_link_is_followed(self) -> None:
        os.symlink(f"{self.folder}/secret", f"{self.folder}/public/out")
        os.symlink("nowhere", f"{self.folder}/public/dangling")
        for path in "~/out/x", "~/out", "~/dangling/x":
            with self.assertRaisesRegex(Refusal, "leads out of the public folder of mysite"):
                self.put_file(path)
        self.assertEqual([], os.listdir(f"{self.folder}/secret"))

    def test_a_link_in_the_place_of_the_file_stays(self) -> None:
        secret = self.put("secret/file", "kept")
        os.symlink(secret, f"{self.folder}/public/x")
        self.put_file("~/x", b"new")
        self.assertEqual((b"kept", b"new"), (self.bytes_of("secret/file"), self.bytes_of("public/x.2")))

    def test_a_file_on_the_way_and_a_folder_at_the_end(self) -> None:
        self.put_file("~/file")
        self.put_file("~/folder/x")
        for path in "~/file/x", "~/folder":
            with self.assertRaisesRegex(Refusal, "is a folder, or leads out"):
                self.put_file(path)

    def test_no_folder(self) -> None:
        self.public = public.Public(f"{self.folder}/nowhere", "mysite")
        with self.assertRaisesRegex(Delay, "there is no public folder"):
            self.put_file("~/x")

    def test_nobody_else_may_lead_to_another_folder(self) -> None:
        secret = self.put("secret/file", "kept").removesuffix("/file")
        home, link = self.put("home/x").removesuffix("/x"), f"{self.folder}/link"
        os.symlink("home", link)
        for place, is_kept in ((f"{home}/in", True), (f"{link}/in", True), (f"{link}/../home/./in/", True)):
            self.public = public.Public(place, "mysite")
            os.makedirs(f"{home}/in", exist_ok=True)
            self.assertEqual("~/x", self.put_file("~/x", b"new"))
            os.remove(f"{home}/in/x")
        self.public = public.Public(f"{home}/in", "mysite")
        os.rmdir(f"{home}/in")
        os.symlink(secret, f"{home}/in")
        self.assertEqual(b"kept", self.asked("~/file"))  # (this user's own link)
        os.chmod(home, 0o1777)
        self.assertEqual(b"kept", self.asked("~/file"))
        for mode in 0o777, 0o775, 0o757:
            os.chmod(home, mode)
            for way in partial(self.put_file, "~/file", b"new"), partial(self.asked, "~/file"):
                with self.assertRaisesRegex(Delay, f"others may write {home}, and so put something else in the place of {home}/in"):
                    way()
        os.chmod(home, 0o755)
        os.symlink("loop", f"{self.folder}/loop")
        for name in "loop", "secret/file", "nowhere":
            self.public = public.Public(f"{self.folder}/{name}", "mysite")
            with self.assertRaisesRegex(Delay, "there is no public folder"):
                self.put_file("~/x")
        self.assertEqual(b"kept", self.bytes_of("secret/file"))

    def test_whose_the_folders_on_the_way_are(self) -> None:
        home, place = self.put("home/x").removesuffix("/x"), f"{self.folder}/home/in"
        os.mkdir(place)
        self.give(place)
        self.public = public.Public(place, "mysite")
        self.assertEqual("~/x", self.put_file("~/x"))  # (nobody else may write home)
        os.chmod(home, 0o1777)
        with self.assertRaisesRegex(Delay, f"others may write {home}"):
            self.put_file("~/x")
        os.chmod(home, 0o755)
        self.give(home)
        with self.assertRaisesRegex(Delay, f"others may write {home}"):
            self.put_file("~/x")

    def asked(self, path: str) -> bytes:
        with self.public.opened(path) as content:
            return os.read(content, 100)

    def test_files_that_are_asked_for(self) -> None:
        self.put("public/a/there", "bytes")
        os.symlink("a/there", f"{self.folder}/public/link")
        self.assertEqual((b"bytes", b"bytes"), (self.asked("~/a/there"), self.asked("~/link")))
        os.symlink(self.put("secret/file", "kept"), f"{self.folder}/public/out")
        os.symlink(f"{self.folder}/secret", f"{self.folder}/public/folder")
        os.mkfifo(f"{self.folder}/public/fifo")
        for path, why in (
            ("~/out", "leads out"), ("~/folder/file", "leads out"), ("~/fifo", "mysite gives no file"), ("~/a", "mysite gives no file"),
            ("~/nowhere", "mysite gives no file"), ("/etc/passwd", "below its public folder alone"), ("~/../secret/file", "below its public folder alone"),
        ):  # fmt: skip
            with self.assertRaisesRegex(Refusal, why):
                self.asked(path)

    def test_no_device_is_opened(self) -> None:
        """A pipe stands for it: whoever opens it to write waits until somebody opens it to read."""
        os.mkfifo(f"{self.folder}/pipe")
        os.symlink("../pipe", f"{self.folder}/public/device")
        writer = Child(lambda: os.close(os.open(f"{self.folder}/pipe", os.O_WRONLY)) or 0)
        time.sleep(0.3)
        with self.assertRaisesRegex(Refusal, "mysite gives no file"):
            self.asked("~/device")
        time.sleep(0.3)
        writer.kill()
        self.assertEqual(137, writer.wait())

    def test_folders_of_neighbours(self) -> None:
        common = self.put("common/x").removesuffix("/x")
        own, shared = (self.put(f"{it}/x").removesuffix("/x") for it in ("own", "shared"))
        table = self.put("etc/public", f"# a comment\nduke /first\nunc {shared}\nduke\t{own}\nphs {shared}")
        with memory_file(b"new") as content:
            names = [public.find(common, table, it, "mysite").put("~/x", content) for it in ("duke", "unc", "phs", "gem", "")]
        self.assertEqual(["~/x", "~/x.2", "~/x.2", "~/x", "~/x.2"], names)
        self.assertEqual(["new", "", "new", "new", "", "new"], [self.bytes_of(it).decode() for it in ("own/x", "shared/x", "shared/x.2", "common/gem/x", "common/x", "common/x.2")])

    def test_no_user_of_this_site_is_alone_in_a_folder_of_its_own(self) -> None:
        own = self.put("own/there").removesuffix("/there")
        table = self.put("etc/public", f"mysite {own}\n")
        for user in "ann", "bob":
            with memory_file(user.encode()) as content:
                public.find(f"{self.folder}/public", table, "", "mysite").put("~/x", content)
        self.assertEqual((b"ann", b"bob"), (self.bytes_of("own/x"), self.bytes_of("own/x.2")))

    def test_nothing_comes_where_files_of_another_come(self) -> None:
        with memory_file(b"x") as content:
            for name in "duke", "gem":
                public.Public(f"{self.folder}/public", "mysite", name).put("~/x", content)
            table = self.put("etc/public", f"unc {self.folder}/public/for-unc\nphs {self.folder}/public")
            for sender, paths in ("", ("~/duke/y", "~/duke/a/y", "~/for-unc/y")), ("phs", ("~/gem/y", "~/for-unc/a/y")):
                for path in paths:
                    with self.assertRaisesRegex(Refusal, f"{path} is where files of another one come"):
                        public.find(f"{self.folder}/public", table, sender, "mysite").put(path, content)
            self.assertEqual("~/a/y", public.find(f"{self.folder}/public", table, "", "mysite").put("~/a/y", content))
        self.assertEqual([".uuspool", "x"], sorted(os.listdir(f"{self.folder}/public/duke")))

    def test_nothing_of_another_is_replaced(self) -> None:
        self.put("public/there", "ann's")
        os.mkfifo(f"{self.folder}/public/fifo")
        os.symlink("there", f"{self.folder}/public/link")
        for name in "there", "fifo", "link":
            self.assertEqual([f"~/{name}.2"] * 2, [self.put_file(f"~/{name}", b"new") for _ in range(2)])
            self.assertEqual(f"~/{name}.3", self.put_file(f"~/{name}", b"other"))
        self.assertEqual(b"ann's", self.bytes_of("public/there"))

    def test_a_neighbour_alone_replaces_its_own(self) -> None:
        duke = public.Public(f"{self.folder}/public", "mysite", "duke")
        for data in b"old", b"new":
            with memory_file(data) as content:
                self.assertEqual("~/a/x", duke.put("~/a/x", content))
        self.assertEqual(b"new", self.bytes_of("public/duke/a/x"))
        self.assertEqual(["x"], os.listdir(f"{self.folder}/public/duke/a"))
        self.give(self.put("public/duke/root", "ann's"))
        with memory_file(b"new") as content:
            self.assertEqual("~/root.2", duke.put("~/root", content))

    def test_a_neighbour_alone_replaces_none_that_has_a_number(self) -> None:
        """(Its own file of the name with the number, or an older one of the name.)"""
        duke = public.Public(f"{self.folder}/public", "mysite", "duke")
        for path, data, put in ("~/x.2", b"1", "~/x.2"), ("~/x", b"2", "~/x.3"), ("~/x", b"3", "~/x.4"), ("~/x", b"2", "~/x.3"), ("~/x.2", b"4", "~/x.2"):
            with memory_file(data) as content:
                self.assertEqual(put, duke.put(path, content))
            with contextlib.suppress(FileExistsError):
                os.symlink("nowhere", f"{self.folder}/public/duke/x")
        self.assertEqual([b"4", b"2", b"3"], [self.bytes_of(f"public/duke/x.{it}") for it in (2, 3, 4)])

    def test_the_folder_of_a_neighbour_has_to_be_the_sites(self) -> None:
        self.put("public/file")
        os.symlink(f"{self.folder}/secret", f"{self.folder}/public/link")
        os.mkdir(f"{self.folder}/public/open")
        os.chmod(f"{self.folder}/public/open", 0o777)
        os.mkdir(f"{self.folder}/public/others")
        self.give(f"{self.folder}/public/others")
        for name in "file", "link", "open", "others":
            with memory_file(b"x") as content, self.assertRaisesRegex(Delay, "remove it"):
                public.Public(f"{self.folder}/public", "mysite", name).put("~/x", content)
        self.assertEqual([], os.listdir(f"{self.folder}/secret"))

    def test_what_a_neighbour_may_fetch(self) -> None:
        self.put("public/for-all/x", "all")
        duke, unc = (public.Public(f"{self.folder}/public", "mysite", it) for it in ("duke", "unc"))
        with memory_file(b"duke's") as content:
            duke.put("~/y", content)
            duke.put("~/for-all/x", content)
        os.symlink("duke/y", f"{self.folder}/public/link")
        self.put("public/open/.uuspool")
        self.put("public/open/x", "all")
        os.chmod(f"{self.folder}/public/open", 0o777)  # (where Taylor UUCP may have brought the mark)
        with unc.opened("~/open/x") as content:
            self.assertEqual(b"all", os.read(content, 9))
        asked = {}
        for who, it in (("duke", duke), ("unc", unc)):
            for path in "~/for-all/x", "~/y", "~/duke/y", "~/link":
                try:
                    with it.opened(path) as content:
                        asked[who, path] = os.read(content, 9).decode()
                except Refusal as refusal:
                    asked[who, path] = str(refusal)
        self.assertEqual(["duke's", "duke's", "duke's", "duke's"], [asked["duke", it] for it in ("~/for-all/x", "~/y", "~/duke/y", "~/link")])
        self.assertEqual(["all", *(f"mysite gives no file {it}" for it in ("~/y", "~/duke/y", "~/link"))], [asked["unc", it] for it in ("~/for-all/x", "~/y", "~/duke/y", "~/link")])

    def test_what_a_neighbour_of_a_site_with_the_public_folder_above_may_fetch(self) -> None:
        second = public.Public(os.path.dirname(self.put("public/second/x", "all")), "second", "duke")
        with memory_file(b"duke's") as content:
            second.put("~/a/y", content)
        for its in public.Public(f"{self.folder}/public", "first", "duke"), public.Public(f"{self.folder}/public", "first"):
            with its.opened("~/second/x") as content:
                self.assertEqual(b"all", os.read(content, 9))
            with self.assertRaisesRegex(Refusal, "first gives no file ~/second/duke/a/y"), its.opened("~/second/duke/a/y"):
                pass

    def test_what_a_neighbour_of_another_site_may_fetch(self) -> None:
        """(Two sites of a machine have one public folder, unless one has another.)"""
        with memory_file(b"duke's") as content:
            public.Public(f"{self.folder}/public", "first", "duke").put("~/a/y", content)
        self.put("public/for-all/x", "all")
        for path in "duke", "duke/.uuspool", "for-all":
            self.give(f"{self.folder}/public/{path}")
        second = public.Public(f"{self.folder}/public", "second", "unc")
        with second.opened("~/for-all/x") as content:
            self.assertEqual(b"all", os.read(content, 9))
        with self.assertRaisesRegex(Refusal, "second gives no file ~/duke/a/y"), second.opened("~/duke/a/y"):
            pass
        os.chmod(f"{self.folder}/public/duke", 0o777)
        with second.opened("~/duke/a/y") as content:
            self.assertEqual(b"duke's", os.read(content, 9))

    def test_without_nameless_files(self) -> None:
        with mock.patch.object(public, "_MAKE_NAMELESS", os.O_WRONLY | os.O_DIRECTORY):  # EISDIR, as a file system without them says
            self.test_nothing_of_another_is_replaced()
            self.test_a_neighbour_alone_replaces_its_own()
        self.assertEqual([], self.new_files())

    def new_files(self) -> list[str]:
        return sorted(it for _, _, names in os.walk(f"{self.folder}/public") for it in names if it.startswith(".new"))

    def test_what_a_kill_left_is_removed_a_day_later(self) -> None:
        def kill(source: int, target: int) -> None:
            os._exit(9)

        with mock.patch.object(public, "_MAKE_NAMELESS", os.O_WRONLY | os.O_DIRECTORY):
            for _ in range(2):
                with mock.patch.object(public, "copy_all", kill):
                    child = Child(lambda: len(self.put_file("~/x")))
                    self.assertEqual(9, child.wait())
            left, younger = self.new_files()
            before = time.time() - 90_000
            for name in f".new.{'0' * 16}", ".news":
                os.utime(self.put(f"public/{name}"), (before, before))
            os.mkdir(f"{self.folder}/public/.new.folder")
            self.give_if_root(f"public/.new.{'0' * 16}")
            os.utime(f"{self.folder}/public/{left}", (before, before))
            self.put_file("~/x")
            kept = [younger, ".news", *([f".new.{'0' * 16}"] if os.geteuid() == 0 else [])]
            self.assertEqual(sorted(kept), self.new_files())
        its = public.Public(f"{self.folder}/public", "mysite", "duke")
        self.put("public/duke/.uuspool")
        for data in b"old", b"new":  # (also where files have no name at first, and replace another one)
            os.makedirs(f"{self.folder}/public/duke", exist_ok=True)
            os.utime(self.put("public/duke/.new.1"), (before, before))
            with memory_file(data) as content:
                its.put("~/x", content)
        self.assertFalse(os.path.exists(f"{self.folder}/public/duke/.new.1"))

    def give_if_root(self, path: str) -> None:
        if os.geteuid() == 0:
            os.chown(f"{self.folder}/{path}", 1, 1)


class Forwarding(Folder):
    def setUp(self) -> None:
        super().setUp()
        self.path = self.put("etc/forward", "duke unc @b.example\nhub *\nmysite @mysite.example\n")

    def is_taken(self, address: str, neighbour: str = "duke", hop: str = "") -> bool:
        try:
            forward.expect_allowed(self.path, "mysite", neighbour, [address], hop)
            return True
        except Refusal:
            return False

    def test_who_gets_mail(self) -> None:
        for address in "joe", "joe.x-y", "mysite!joe", "joe@mysite.example", "joe@MYSITE.example", "joe@mysite", "unc!joe", "unc!phs!joe", "joe@b.example", "j\xf6e":
            self.assertTrue(self.is_taken(address), address)
        for address in (
            "joe@c.example", "phs!joe", "joe%c.example", "joe%c.example@mysite.example", "unc!joe@c.example", "@c.example:joe@b.example", "|id", "/etc/x",
            ":include:/x", "-x", '"joe@c.example"@mysite', "mysite!phs!joe", "", "joe@b.example@c.example", "unc!|id", "joe@[127.0.0.1]", "joe\n", "joe+${run{id}}@mysite",
            "unc!-Dx!user", "unc!-oX", "unc!phs!-oX!user", "-unc!joe",
        ):  # fmt: skip
            self.assertFalse(self.is_taken(address), address)
        self.assertTrue(self.is_taken("joe@c.example", "hub"))
        self.assertFalse(self.is_taken("unc!joe", "phs"))
        for address in "mysite!unc!joe", "mysite!mysite!joe", "mysite!joe@b.example":
            self.assertTrue(self.is_taken(address), address)
        for address in "mysite!mysite!phs!joe", "mysite!", "mysite!-oX", "mysite!|id":
            self.assertFalse(self.is_taken(address), address)

    def test_who_gets_mail_by_a_system_to_which_it_goes_as_a_whole(self) -> None:
        """A mailer here would read `unc!joe@c.example` as RFC 822 does, and carry it to c.example."""
        for address in "unc!joe@c.example", "unc!phs!joe@c.example", "mysite!unc!joe@c.example", "unc!joe":
            self.assertEqual((True, address == "unc!joe"), (self.is_taken(address, hop="unc"), self.is_taken(address)), address)
        for address in "phs!joe@c.example", "joe@c.example", "unc!joe@c.example@d.example", "unc!joe%c@d.example", "unc!-oX@c.example", "unc!joe@-c.example", "unc!|id@c", "unc!joe@c/../d", "unc!@c.example":
            self.assertFalse(self.is_taken(address, hop="unc"), address)
        for addresses, hop in (["unc!joe@c.example", "unc!eve"], "unc"), (["unc!joe@c.example", "eve"], ""), (["unc!joe@c.example", "phs!eve"], ""), (["phs!joe@c.example"], ""):
            self.assertEqual(hop, forward.next_hop(self.path, "duke", addresses))

    def test_what_is_behind_the_own_name(self) -> None:
        for address, rest in ("mysite!unc!joe", "unc!joe"), ("mysite!mysite!joe", "joe"), ("mysite!", "mysite!"), ("unc!mysite!joe", "unc!mysite!joe"), ("joe", "joe"), ("mysite2!joe", "mysite2!joe"):
            self.assertEqual(rest, forward.behind(self.path, "mysite", address))

    def test_what_comes_for_a_domain_of_this_site(self) -> None:
        """An envelope has `ann@mysite.example` as `mysite.example!ann`, so that is where a letter to her comes."""
        for address in "mysite.example!ann", "mysite!mysite.example!ann", "Mysite.Example!ann":
            self.assertEqual((True, f"ann@{address.removeprefix('mysite!').partition('!')[0]}"), (self.is_taken(address), forward.behind(self.path, "mysite", address)))
        for address in "b.example!ann", "mysite.example!phs!ann", "mysite.example!-oX", "mysite.example!|id", "mysite.example!ann@c.example", "mysite.example!", "mysite.example2!ann":
            self.assertEqual((False, address), (self.is_taken(address), forward.behind(self.path, "mysite", address)))

    def test_what_the_spool_hands_on(self) -> None:
        self.assertEqual([("unc",), (), ()], [forward.read(self.path, it).systems for it in ("duke", "hub", "phs")])


class Envelopes(Folder):
    def signed(self, data: bytes, user: str = "duke!ann", most: int = 1000, sender: str = "duke") -> bytes:
        with memory_file(data) as content, envelope.signed(self.mail(content, user)._replace(sender=sender), "mysite", self.folder) as given:
            return os.pread(given, most, 0)

    def mail(self, content: int, user: str = "duke!ann") -> Delivered:
        return Delivered("exec", ("rmail", "joe"), content, "duke", user, "mysite!7!2026-11-08.09:30:00")

    def test_the_line_says_from_which_neighbour(self) -> None:
        for line in b"From ann Sat Nov 28 12:00:00 2026 remote from duke\n\nhello", b"From a!b+c=d  28 Nov 26 1:00 x remote from duke\nx":
            self.assertEqual(line, self.signed(line))
        for text, rest in (
            (b"From president x remote from unc\nhello", b"hello"), (b"From president remote from unc remote from duke\nhello", b"hello"),
            (b">From x remote from unc\n", b""), (b"hello", b"hello"), (b"", b""), (b"From x remote from aduke", b""), (b"From boss x\nhello", b"hello"),
            (b"From remote from duke\n>From president x", b""), (b"From  remote from duke\nx", b"x"), (b"From a\tremote from duke\nx", b"x"),
        ):  # fmt: skip
            first, _, after = self.signed(text).partition(b"\n")
            self.assertRegex(first, rb"^From ann [A-Z][a-z]{2} [A-Z][a-z]{2} [ \d]\d \d\d:\d\d:\d\d \d{4} remote from duke$")
            self.assertEqual(rest, after)
        self.assertEqual(b"From a!b Sun Nov  8 09:30:00 2026 remote from duke\n", self.signed(b"", "duke!a!b"))

    def test_the_line_has_a_date(self) -> None:
        """Exim believes no line without one, and takes the mail for that of this site's own `uucp`."""
        for after in b" remote from duke", b" x remote from duke", b" 28 Nov 2026 remote from duke", b" 2026-11-28 12:00:00 remote from duke", b"  Sat, 28 Nov 2026 12:00:00 remote from duke":
            self.assertEqual(b"From joe Sun Nov  8 09:30:00 2026 remote from duke\nhello", self.signed(b"From joe" + after + b"\nhello"), after)
        for date in b"Sat Nov 28 12:00:00 2026", b"Nov 28 12:00", b"28 Nov 26 1:00", b"Sat 8 Nov 2026 12:00:00 +0100":
            line = b"From joe " + date + b" remote from duke\nhello"
            self.assertEqual(line, self.signed(line))

    def test_a_local_mailer_gets_one_line_with_the_whole_path(self) -> None:
        """Exim takes one line `From`. What follows is a header, or else the headers become text."""
        head = b"From unc!joe Sat Nov 28 12:00:00 2026 remote from duke\n"
        for text, path in (
            (head + b">From joe x remote from unc\n", b"unc!joe"), (head + b">From joe x\n", b"unc!joe"), (head.replace(b"unc!", b"phs!unc!") + b">From joe x remote from unc\n", b"phs!unc!joe"),
            (head.replace(b"unc!joe", b"uucp") + b">From uucp x remote from unc\n>From joe x remote from phs\n", b"unc!phs!joe"), (head.replace(b"unc!joe", b"joe") + b">From joe x remote from unc\n", b"unc!joe"),
            (head.replace(b"unc!joe", b"uucp") + b">From joe x\n", b"joe"), (head.replace(b"unc!joe", b"uucp") + b">From uucp x remote from unc\nFrom joe\n", b"unc!joe"),
            (head + b">From boss x remote from phs\n", b"phs!boss"), (head + b">From boss x remote from mysite\n", b"mysite!boss"), (head + b">From boss x remote from a b c<ann@mysite>\n>From  x remote from b\n", b"unc!joe"),
        ):  # fmt: skip
            self.assertEqual(head.replace(b"unc!joe", path) + b"From: joe\n\n>From z\n", self.signed(text + b"From: joe\n\n>From z\n"), text)
        for text, path in (b"From joe x\n", b"joe"), (b"From joe x remote from unc\n", b"unc!joe"), (b"", b"uucp"):
            self.assertEqual(b"From " + path + b" Sun Nov  8 09:30:00 2026 remote from duke\nhello\n", self.signed(text + b"hello\n", "duke!uucp"))

    def test_mail_of_a_user_here_has_one_line_of_that_user(self) -> None:
        line = b"From ann Sun Nov  8 09:30:00 2026 remote from mysite\n"
        for text, rest in (
            (b"hello\n", b"hello\n"), (b"", b""), (line + b"hello", b"hello"), (b"From boss x remote from duke\nhello", b"hello"),
            (b"From joe x remote from mysite\nhello", b"hello"), (b"From annie x remote from mysite\nhello", b"hello"), (b"From ann x remote from duke\nhello", b"hello"),
            (line + b">From boss x\nFrom\tjoe x\n>From\vjoe x\nhello\n>From y\n", b"hello\n>From y\n"), (b">From boss x\n\nFrom z\n", b"\nFrom z\n"),
        ):  # fmt: skip
            self.assertEqual(line + rest, self.signed(text, "ann", sender=""))
        self.assertEqual(line.replace(b"ann", b"b.example!joe") + b"x", self.signed(b"From joe@b.example x remote from mysite\n>From joe@b.example x\nx", "joe@b.example", sender=""))

    def test_no_blank_makes_an_older_line_another_one(self) -> None:
        line = b"From ann Sat Nov 28 12:00:00 2026 remote from duke\n"
        self.assertEqual(line, self.signed(line + b"From\tboss x\n"))

    def test_users_are_paths_of_plain_words(self) -> None:
        for user, path in (
            ("ann", "ann"), ("a!b", "a!b"), ("SRS0=x=y.z+w~'&#^_-@b.example", "b.example!SRS0=x=y.z+w~'&#^_-"), ("a!joe@b.example", "a!b.example!joe"),
            ("x<ann@mysite>", "mysite_!x_ann"), ('"ann"(x)@a@b', "b!_ann__x__a"), ("@a,@b:ann@mysite", "mysite!_a__b_ann"), ("ann%mysite", "ann_mysite"), ("|id", "_id"),
            ("${run{id}}", "__run_id__"), ("-oX", "oX"), ("a!--b", "a!b"), ("!!a!!b!", "a!b"), ("/etc/x;`id`", "_etc_x__id_"), ("@", ""), ("a\x9bb\udce9\xe9", "a_b__"), ("", ""),
        ):  # fmt: skip
            self.assertEqual(path, envelope.plain_user(user), user)

    def test_no_line_of_the_envelope_has_another_address(self) -> None:
        head = b"From ann Nov 28 1:00 x remote from duke\n"
        self.assertTrue(self.signed(b"hello", "duke!x<ann@mysite>").startswith(b"From mysite_!x_ann Sun Nov  8 "))
        self.assertTrue(self.signed(b"hello", "duke!@").startswith(b"From uucp Sun Nov  8 "))
        for text, given in (
            (b"From x<ann@mysite> Nov 28 1:00 a remote from duke\nhello", b"From mysite_!x_ann Nov 28 1:00 a remote from duke\nhello"),
            (b"From joe@b.example Nov 28 1:00 remote from duke\nhello", b"From b.example!joe Nov 28 1:00 remote from duke\nhello"),
            (b"From a~\xa0\xff Nov 28 1:00 x\0\x1b remote from duke\n", b"From a~__ Nov 28 1:00 x__ remote from duke\n"),
            (head + b">From x<ann@mysite> y\n>From z remote from a<ann@mysite>\n\n<a@b>\n>From x<y>\n", b"From a_ann_mysite_!z Nov 28 1:00 x remote from duke\n\n<a@b>\n>From x<y>\n"),
            (head + b">From x<ann@mysite> y remote from b\n>From z remote from a<ann@mysite>\n", b"From b!a_ann_mysite_!z Nov 28 1:00 x remote from duke\n"),
        ):  # fmt: skip
            self.assertEqual(given, self.signed(text))

    def test_lines_without_end_are_refused(self) -> None:
        line = b"From ann remote from duke\n"
        for text in b"From " + b"x" * (1 << 16), line + b">From x\n" * (1 << 13), line + b">From " + b"x" * (1 << 16), *(line[:-1] + b"x" * more + b"\n" + b">From x\n" * 8188 + b">From y" for more in range(6)):
            with self.assertRaisesRegex(Refusal, "have more than 64 KiB"):
                self.signed(text)
        self.assertEqual(b"x" * 6, self.signed(line + b">From x\n" * 8188 + b"x" * 6, most=1 << 17)[-6:])

    def test_mail_that_is_handed_on(self) -> None:
        """RFC 976 keeps older lines between systems."""
        older = b">From a x remote from duke\n>From b x remote from unc\n\n"
        with memory_file(older[1:]) as content, envelope.handed_on(self.mail(content, "duke!x<b@c>"), "mysite", self.folder) as given:
            self.assertEqual(b"From duke!c_!x_b Sun Nov  8 09:30:00 2026 remote from mysite\n" + older, os.pread(given, 1000, 0))

    def plain(self, data: bytes, user: str) -> bytes:
        with memory_file(data) as content:
            envelope.make_plain(content, parcel(f"7 unc {user} N 2026-11-08 09:30:00 0 exec rmail joe", b"").job, "mysite", self.folder)
            return os.pread(content, 2000, 0)

    def test_mail_of_a_neighbour_that_went_on_without_a_delivery(self) -> None:
        ours, date = b"From duke!mysite_!x_ann Sun Nov  8 09:30:00 2026 remote from mysite\n", b" Nov 28 1:00 remote from mysite\n"
        for written, plain in (
            (ours, ours), (b"From duke!x<ann@mysite>" + date, b"From duke!mysite_!x_ann" + date), (b"From duke!x<ann@mysite> remote from mysite\n", ours),
            (ours + b">From x<ann@mysite> y<z>\nFrom\tz\n", ours), (b"From president" + date, ours), (b"From ann@mysite x\n", ours), (b">From duke!x<ann@mysite>" + date, ours), (b"", ours),
            (b"From duke!x<ann@mysite> Nov 28 1:00\n", b"From duke!mysite_!x_ann Nov 28 1:00\n"), (b"From duke!x<ann@mysite> Nov 28 1:00 remote from unc\n", ours),
            (b"From duke!x<ann@mysite>" + date + b">From joe x remote from duke\n>From boss y remote from unc\n", b"From duke!unc!boss" + date),
        ):  # fmt: skip
            self.assertEqual(plain + b"\nhello\n", self.plain(written + b"\nhello\n", "duke!x<ann@mysite>"), written)

    def test_mail_of_a_mailer_here_keeps_plain_addresses(self) -> None:
        """(A stranger may have sent it by SMTP.)"""
        date = b" Nov 28 1:00"
        for user in b"ann", b"ann@mysite.example", b"SRS0=x/y=z@b.example", b"a%b@c", b"unc!joe@b.example", b"":
            mail = b"From " + user + date + b"\n>From " + user + b" x\n\nhello\n"
            self.assertEqual(mail, self.plain(mail, "uucp"))
        for user, plain in (b"x<ann@mysite>", b"mysite_!x_ann"), (b"a@b@c", b"c!a_b"), (b"-oX@b", b"b!oX"), (b"unc!-oX", b"unc!oX"), (b"/etc/x", b"_etc_x"), (b"j\xf6e@b", b"b!j_e"):
            self.assertEqual(b"From " + plain + date + b"\n>From " + plain + b" \n\nhello\n", self.plain(b"From " + user + date + b"\n>From " + user + b"\n\nhello\n", "uucp"))
        line = b"From uucp Sun Nov  8 09:30:00 2026 remote from mysite\n"
        for written, plain in (b"hello\n", b"hello\n"), (b"", b""), (b">From x\n", line + b">From x \n"), (b"From uucp x remote from mysite\nx", line + b"x"):
            self.assertEqual(plain, self.plain(written, "uucp"))

    def test_mail_that_is_handed_on_keeps_its_date(self) -> None:
        """So it has the same bytes if it is handed on again. What is no date is none."""
        date = b"Sat Nov 28 12:00:00 2026"
        for text, wanted in (
            (b"From a " + date + b" remote from duke\n", date), (b"From a  " + date + b"\n", date), (b"From a x\n>From a Tue Dec  1 08:00:00 2026 remote from unc\n", b"Tue Dec  1 08:00:00 2026"),
            (b"From a " + date + b" <ann@mysite> remote from duke\n", b""), (b"From a " + date + b"x remote from duke\n", b""), (b"From a\n", b""), (b"", b""),
        ):  # fmt: skip
            with memory_file(text) as content, envelope.handed_on(self.mail(content), "mysite", self.folder) as given:
                first = os.pread(given, 1000, 0).partition(b"\n")[0]
            self.assertEqual(b"From duke!ann " + (wanted or b"Sun Nov  8 09:30:00 2026") + b" remote from mysite", first)

    def test_what_begins_with_a_blank_is_the_body(self) -> None:
        """Exim would take it for a part of the line, and a second line of an envelope behind it for the right one."""
        for blank in b" ", b"\t":
            body = blank + b"x\nFrom boss Nov 28 1:00 remote from mysite\n\nhello\n"
            for head in b"", b"From ann Sat Nov 28 12:00:00 2026 remote from duke\n":
                given = [self.signed(head + body), self.plain(head + body, "duke!ann"), self.plain(head + body, "uucp")]
                with memory_file(head + body) as content, envelope.handed_on(self.mail(content), "mysite", self.folder) as on:
                    given.append(os.pread(on, 1000, 0))
                for its in given:
                    self.assertTrue(its.endswith(b"\n" + body) and b"\n" + blank not in its.removesuffix(body)[:-1], its)
            again = self.signed(self.signed(body))
            self.assertEqual((1, self.signed(body)), (again.count(b"\n\n" + blank), again))
        self.assertEqual(b"\nx", self.signed(b"\nx").partition(b"\n")[2])

    def test_large_mail_has_no_name(self) -> None:
        with memory_file(bytes(1_048_577)) as content, envelope.signed(self.mail(content), "mysite", self.folder) as given:
            self.assertEqual([], os.listdir(self.folder))
            self.assertEqual(1_048_577, len(os.read(given, 2_000_000).partition(b"\n")[2]))
