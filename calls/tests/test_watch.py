"""Figures of a site, what a monitor says of them, and what a check finds."""
import os
import pwd
import re
import time
from unittest import mock

from uuspool_calls import check, clock, figures, metrics, monitor
from uuspool_calls.errors import Failure
from uuspool_calls.figures import Figures, Neighbour
from uuspool_calls.processes import Ended
from uuspool_calls.session import user_name
from uuspool_calls.settings import Settings

from .standins import SITE, Folder, Quiet

STATUS = "duke 2 600 failed 2026-11-28 10:00:00 no-|-carrier\nmysite 0 0 never\nunc 0 0 done 2026-11-28 09:00:00\n"
QUEUES = "duke 3 500 N 2026-11-27 11:00:00\nmysite 1 20 N 2026-11-28 11:59:00\n"
NOON = 1795867200  # 2026-11-28 12:00:00 UTC
HOUR = 3600


def figures_of(*neighbours: Neighbour, **values: int) -> Figures:
    """A site with these neighbours, at noon."""
    return Figures("mysite", NOON, neighbours, **{"room": 1 << 40, **values})


class Gathered(Folder):
    def ask(self, name: str, *words: str, joined: bool = False) -> Ended:
        texts = {"status": STATUS, "queues": QUEUES, "list": "7 mysite ann N 2026-11-28 10:00:00 5 exec rmail joe\n"}
        return Ended(0, texts[words[0]].encode(), b"")

    def test_figures(self) -> None:
        for path in "spool.db", "spool.db-wal":
            self.put(path, "12345")
        for path in "refused/1", "refused/2.untold", "refused/3.warned", "refused/.looked", "refused/ab12.file.untold/whole", "refused/12ab.warned", "deliver/7", "deliver/8", "deliver/7.lock", "deliver/round":
            self.put(path)
        os.utime(f"{self.folder}/deliver/round", (NOON - 60,) * 2)
        self.put("calls/unc.json", '{"called": %d, "held": true}' % (NOON - 5))
        found = Settings("mysite", "", "", f"{self.folder}/spool.db", "", "<one>-1")
        with mock.patch("uuspool_calls.clock.now", return_value=NOON):
            it = figures.gather(found, self.ask)
        hour = NOON - 2 * HOUR - HOUR  # (10 o'clock in a zone that is an hour ahead)
        self.assertEqual(
            (
                Neighbour("duke", 3, 500, hour - 23 * HOUR, 2, hour, hour + 600, "no-|-carrier"),
                Neighbour("mysite", 1, 20, NOON - HOUR - 60),
                Neighbour("unc", 0, 0, 0, 0, NOON - 5, NOON - 4 * HOUR, held=True),
            ),
            it.neighbours,
        )
        self.assertEqual(("mysite", NOON, 1, 3, 2, 10, NOON - 60), (it.own, it.now, it.delayed, it.refused, it.untold, it.spool, it.round))
        self.assertGreater(it.room, 0)

    def test_one_record_that_cannot_be_read(self) -> None:
        """The others are counted, and of that neighbour what is known."""
        self.put("calls/duke.json", b" " * ((1 << 16) + 1))
        self.put("calls/unc.json", '{"called": %d, "held": true}' % NOON)
        it = figures.gather(Settings("mysite", "", "", f"{self.folder}/spool.db", "", "UTC0"), self.ask)
        duke, _, unc = it.neighbours
        self.assertEqual((3, 2, NOON, True, ""), (duke.jobs, duke.failed, unc.called, unc.held, unc.odd))
        self.assertRegex(duke.odd, "^/.*/calls/duke.json has more than 64 KiB, .*: remove it as the spool's user, and hold duke again")
        lines = metrics.text(it).splitlines()
        self.assertEqual(['uuspool_held{site="mysite",neighbour="mysite"} 0', 'uuspool_held{site="mysite",neighbour="unc"} 1'], [line for line in lines if line.startswith("uuspool_held")])
        grade, line = monitor.report(it._replace(now=NOON, round=0), monitor.Limits())
        self.assertEqual((1, True), (grade, duke.odd in line))

    def test_what_is_used_of_the_limit(self) -> None:
        path = self.put("spool.db")
        for pages, free, used, is_high in (0, 0, 0, False), (204, 0, 204, False), (205, 0, 205, True), (256, 52, 204, False), (300, 0, 300, True):
            with open(path, "wb") as file:
                file.write(bytes(36) + free.to_bytes(4, "big"))
                file.truncate(pages * 4096)
            use = figures.use_of(Settings("mysite", "", "", path, "", "UTC0", limit=1 << 20))
            self.assertEqual((used * 4096, is_high), (use.used, use.is_high))
        self.assertEqual("117 % of the limit of 1 MiB", str(use))
        self.assertFalse(figures.use_of(Settings("mysite", "", "", path, "", "UTC0")).is_high)

    def test_a_spool_that_cannot_be_asked(self) -> None:
        found = Settings("mysite", "", "", f"{self.folder}/spool.db", "", "UTC0")
        with self.assertRaisesRegex(Failure, "the spool cannot be asked: uuspool: x is missing"):
            figures.gather(found, lambda *words, joined=False: Ended(3, b"uuspool: x is missing\n", b""))
        for line in "$(id) 9 0 failed 2026-11-28 10:00:00 x", "d;id 0 0 never", "duke 0", "duke x 0 never", "-x 0 0 never", "duke 1 1 done 99999999999-01-01 00:00:00", "":
            with self.assertRaisesRegex(Failure, "^uuspool printed something else than systems: try again, and see what else"):
                figures.gather(found, lambda *words, joined=False: Ended(0, f"{STATUS}{line}\n".encode(), b""))


class Monitor(Folder):
    def expect(self, grade: int, what: str, it: Figures, *words: str) -> str:
        found, line = monitor.report(it, monitor.Limits.read(words, "usage"))
        name = ("OK", "WARNING", "CRITICAL")[grade]
        self.assertEqual((grade, f"UUSPOOL {name} - {what}"), (found, line.partition(" | ")[0]))
        return line.partition(" | ")[2]

    def test_all_is_well(self) -> None:
        drawn = self.expect(0, "3 jobs wait", figures_of(Neighbour("duke", 3, 500, NOON - 7200), spool=5, refused=2, delayed=1))
        self.assertEqual(f"jobs=3 bytes=500B oldest=7200s;93600;259200 failed=0;3;10 delayed=1 refused=2 spool=5B free={1 << 40}B", drawn)
        self.expect(0, "0 jobs wait", figures_of())
        self.expect(0, "1 job waits", figures_of(Neighbour("duke", 1, 5, NOON + 60)))

    def test_the_age_of_the_oldest_job(self) -> None:
        for hours, grade in (25, 0), (26, 1), (71, 1), (72, 2):
            it = figures_of(Neighbour("duke", 1, 5, NOON - hours * HOUR), Neighbour("unc", 0, 0, 1))
            self.expect(grade, "1 job waits" if not grade else f"a job for duke waits for {hours} hours", it)
        it = figures_of(Neighbour("duke", 1, 5, NOON - 30 * HOUR, held=True))
        self.expect(1, "a job for duke waits for 30 hours and it is held", it)
        self.expect(0, "1 job waits", it, "-w", "31")
        self.expect(2, "a job for duke waits for 30 hours and it is held", it, "-c30")
        self.expect(0, "1 job waits", it, "-w0", "-c0")

    def test_calls_that_fail(self) -> None:
        for failed, grade in (2, 0), (3, 1), (9, 1), (10, 2):
            it = figures_of(Neighbour("duke", failed=failed, why="no-|-carrier"))
            self.expect(grade, "0 jobs wait" if not grade else f"{failed} calls of duke failed in a row: no-/-carrier", it)
        self.expect(2, "2 calls of duke failed in a row: x", figures_of(Neighbour("duke", failed=2, why="x")), "-C", "2")

    def test_the_worst_comes_first(self) -> None:
        it = figures_of(Neighbour("duke", failed=3, why="x"), Neighbour("unc", 1, 1, NOON - 80 * HOUR))
        self.expect(2, "a job for unc waits for 80 hours; 3 calls of duke failed in a row: x", it)

    def test_one_system(self) -> None:
        it = figures_of(Neighbour("duke", failed=3, why="x"), Neighbour("unc", 1, 1, NOON), room=0)
        self.assertEqual("jobs=1 bytes=1B oldest=0s;93600;259200 failed=0;3;10", self.expect(0, "1 job waits", it, "-s", "unc"))
        self.expect(2, "no system phs is defined", it, "-sphs")

    def test_the_site(self) -> None:
        self.expect(1, "uuspool-night made no round for 60 minutes", figures_of(round=NOON - HOUR))
        self.expect(0, "0 jobs wait", figures_of(round=NOON - HOUR), "-r", "61")
        self.expect(1, "nobody could be told of 2 refused jobs", figures_of(untold=2))
        for megabytes, grade in (100, 0), (99, 1), (10, 1), (9, 2):
            self.expect(grade, "0 jobs wait" if not grade else f"{megabytes} MB are free for the spool", figures_of(room=megabytes << 20))
        self.expect(1, "the spool uses 81 % of the limit of 1 MiB", figures_of(used=850_000, limit=1 << 20))
        self.expect(0, "0 jobs wait", figures_of(used=830_000, limit=1 << 20))

    def test_wrong_words(self) -> None:
        for words in ["-w", "x"], ["-x"], ["duke"], ["-c"], ["-m", "-1"]:
            with self.assertRaises(Failure):
                monitor.Limits.read(words, "usage")


class Metrics(Folder):
    def test_the_text(self) -> None:
        it = figures_of(Neighbour("duke", 3, 500, 1000, 2, 2000, NOON + 60, "x", True), Neighbour("unc"), refused=4, round=5)
        lines = metrics.text(it).splitlines()
        for line in (
            'uuspool_up{site="mysite"} 1', 'uuspool_refused_jobs{site="mysite"} 4', 'uuspool_last_round_timestamp_seconds{site="mysite"} 5',
            'uuspool_jobs{site="mysite",neighbour="duke"} 3', 'uuspool_jobs{site="mysite",neighbour="unc"} 0', 'uuspool_wait_seconds{site="mysite",neighbour="duke"} 60',
            'uuspool_held{site="mysite",neighbour="duke"} 1', 'uuspool_oldest_job_timestamp_seconds{site="mysite",neighbour="duke"} 1000',
            'uuspool_failed_calls{site="mysite",neighbour="duke"} 2', 'uuspool_last_call_timestamp_seconds{site="mysite",neighbour="duke"} 2000',
        ):  # fmt: skip
            self.assertIn(line, lines)
        self.assertFalse([line for line in lines if line.startswith(("uuspool_oldest", "uuspool_last_call")) and "unc" in line])
        kinds = [line.split()[2] for line in lines if line.startswith("# TYPE ")]
        self.assertEqual(len(set(kinds)), len(kinds))
        self.assertEqual({line.partition("{")[0] for line in lines if line[0] != "#"}, set(kinds))

    def test_a_clock_that_is_behind_the_last_call(self) -> None:
        self.assertIn('uuspool_wait_seconds{site="mysite",neighbour="duke"} 0', metrics.text(figures_of(Neighbour("duke", called=NOON + 50, free=NOON + 60))).splitlines())

    def test_names_are_escaped(self) -> None:
        self.assertIn('neighbour="a\\\\b\\"c\\nd"} 1', metrics.text(figures_of(Neighbour('a\\b"c\nd', 1))))

    def test_the_file_with_one_record_that_cannot_be_read(self) -> None:
        for name, text in ("site", SITE.format(self.folder)), ("status", STATUS), ("queues", QUEUES), ("uuspool.toml", ""), ("s/a b.db", "x"):
            self.put(name, text)
        self.put("bin/uuspool", f'#!/bin/sh\nexec cat "{self.folder}/$1"\n', 0o755)
        self.put("s/calls/duke.json", b" " * ((1 << 16) + 1))
        session = Quiet(self.folder)
        self.assertEqual(75, check.run(session, ["--metrics", f"{self.folder}/x.prom"]))
        self.assertRegex("".join(session.said), "^/.*/calls/duke.json has more than 64 KiB, ")
        text = self.bytes_of("x.prom").decode()
        for line in 'uuspool_up{site="mysite"} 1', 'uuspool_jobs{site="mysite",neighbour="duke"} 3', 'uuspool_held{site="mysite",neighbour="unc"} 0':
            self.assertIn(line, text.splitlines())
        self.assertNotIn('uuspool_held{site="mysite",neighbour="duke"}', text)

    def test_the_file(self) -> None:
        session = Quiet(self.folder)
        with self.assertRaisesRegex(Failure, "bin/uuspool: No such file"):
            check.run(session, ["--metrics", f"{self.folder}/x.prom"])
        self.assertEqual(b'uuspool_up{site=""} 0\n', self.bytes_of("x.prom").splitlines(True)[-1])
        self.assertEqual(["x.prom"], os.listdir(self.folder))
        self.assertEqual(2, check.run(session, ["--monitor"]))
        self.assertRegex(session.printed[-1], "^UUSPOOL CRITICAL - .*bin/uuspool: No such file")
        with self.assertRaises(Failure) as raised:
            check.run(session, ["--monitor", "-x"])
        self.assertEqual(3, raised.exception.status)


class Checked(Folder):
    def setUp(self) -> None:
        super().setUp()
        self.check = check.Check(Quiet(self.folder, UUSPOOL_HOME=f"{self.folder}/home"))
        self.said = self.check._session.printed  # type: ignore[attr-defined]
        self.check._owner, self.check._folder = "root", self.folder
        self.check._settings = self.check._settings._replace(path=self.put("uuspool.toml"))

    def test_neighbours_that_fail(self) -> None:
        self.check._status = [line.split(" ") for line in STATUS.replace("duke 2", "duke 12").splitlines()]
        self.check._check_failures()
        (line,) = self.said
        self.assertRegex(line, "^12 calls of duke failed in a row, the last one at 2026-11-28 10:00:00: no-|-carrier: uuspool-log -s duke")

    def test_names_that_something_else_wrote(self) -> None:
        self.put("spool.db", "x", 0o600)
        self.put("spool.db-word", "x")
        self.put("site", SITE.format(self.folder).replace("a b.db", "spool.db"))
        odd = "uuspool printed something else than systems: try again, and see what else runs as its user."
        for name in "d;id", "$(id)", "-x":
            self.said.clear()
            with mock.patch.object(self.check, "_as_owner", return_value=Ended(0, f"{name} 9 0 failed 2026-11-28 10:00:00 x\n".encode(), b"")):
                with mock.patch.object(self.check, "_missing_spool", return_value=""), mock.patch.object(self.check, "_check_folder"), mock.patch.object(check, "owner_of", return_value="root"):
                    self.assertFalse(self.check.spool())
                self.check.calls()
            self.assertEqual([odd, odd], self.said[:2])
            self.assertFalse([it for it in self.said if name in it])

    def test_what_something_else_wrote_for_uuspool_sys(self) -> None:
        self.put("etc/sys", "system root\ntime Any\n")
        self.check._own, self.check._systems = "root", frozenset(["root"])
        for line, told in ("defines unc", True), ("x ; curl x | sh", False), ("drops d;id", False), ("drops a b", False), ("uuspool-sys: odd", True), ("", False):
            self.said.clear()
            with mock.patch.object(self.check, "_as_owner", return_value=Ended(0, f"{line}\n".encode(), b"")):
                self.check.systems()
            self.assertEqual([f"{self.folder}/etc/sys and the spool differ, or a line means nothing; run uuspool-sys, which says: '{line}'"] * told, self.said)

    def test_su(self) -> None:
        line = "auth requisite pam_succeed_if.so quiet user notingroup root"
        first, other = "auth sufficient pam_rootok.so\n", line.replace("root", "wheel")
        for logins, text, found in (
            (["root"], first, 1), (["root"], f"{first}# {line}\n", 1), (["root"], f"#x\n{first}\n{line}\n@include common-auth\n", 0), ([], first, 0), (["root"], "", 0),
            (["root"], f"{first}@include common-auth\n{line}\n", 1), (["root"], f"{first}{other}\n", 1), (["root"], f"{first}session x\n{line.replace(' ', '  ')}\n", 0),
        ):  # fmt: skip
            self.said.clear()
            with mock.patch.object(check, "_logins", return_value=logins):
                self.check._check_su(self.put("su", text))
            self.assertEqual([f"add the line '{line}' to {self.folder}/su"] * found, re.findall("add the line .* to [^,]*", "".join(self.said)))

    def test_as_whom_sendmail_runs_programs(self) -> None:
        for text, found in ("", 0), ("O DefaultUser=mail:mail\n", 0), ("#O DefaultUser=root\n", 0), ("O DefaultUser=root:root\n", 1), ("O DefaultUser = 0.0\n", 1), ("O DefaultUser=root\nO DefaultUser=mail\n", 0):
            self.said.clear()
            self.check._check_sendmail(self.put("sendmail.cf", text))
            self.assertEqual([f"{self.folder}/sendmail.cf: sendmail runs programs of its aliases as root"] * found, [it.partition(", who")[0] for it in self.said], text)

    def test_login_shells(self) -> None:
        ours = self.put("lib/uuspool/uucico-login", "#!/bin/sh\n", 0o755)
        os.symlink(f"{self.folder}/lib", f"{self.folder}/same")
        for shell, begins in (
            (ours, ""), (f"{self.folder}/same/uuspool/uucico-login", ""), ("/usr/sbin/uucico", "Who has the password of unc may give uucico options"),
            ("/usr/share/doc/uuspool/uucico-login", "The login shell of unc, /usr/share/doc/uuspool/uucico-login, is not that of this version"),
        ):  # fmt: skip
            self.said.clear()
            with mock.patch.object(check, "_shell_of", return_value=shell), mock.patch.object(self.check, "_sshd_says", return_value=[]):
                self.check._check_login("unc")
            self.assertEqual([(begins, f"usermod -s {ours} unc")] if begins else [], [(it[: len(begins)], it.rpartition(": ")[2]) for it in self.said])

    def test_clocks(self) -> None:
        for zone, machine, found in ("UTC0", "UTC0", 0), ("<site>-1:0", "CET-1CEST,M3.5.0,M10.5.0/3", 1), ("CET-1CEST,M3.5.0,M10.5.0/3", "CET-1CEST,M3.5.0,M10.5.0/3", 0):
            self.said.clear()
            self.check._settings = self.check._settings._replace(zone=zone, path="/x/uuspool.toml")
            with mock.patch("uuspool_calls.clock.rule_of_machine", return_value=machine):
                self.check._check_zone()
            self.assertEqual(found, len(self.said), zone)
        self.check._settings = self.check._settings._replace(zone="UTC0")
        with mock.patch("uuspool_calls.clock.rule_of_machine", return_value="<two>-2"):
            self.check._check_zone()
        self.assertIn('write zone = "<two>-2" instead of offset into /x/uuspool.toml', self.said[-1])

    def test_accounts(self) -> None:
        self.check._check_accounts()
        self.assertEqual([], self.said)
        self.put("home/.ssh/authorized_keys", "key")
        with mock.patch("pwd.getpwnam", side_effect=KeyError):
            self.check._check_accounts()
        with mock.patch("pwd.getpwnam", return_value=pwd.struct_passwd(("uuspool", "x", 10, 10, "", "/", "/usr/sbin/nologin"))):
            self.check._check_accounts()
        self.assertEqual(["There is no account uuspool", "The account uuspool has the shell /usr/sbin/nologin"], [it.partition(",")[0] for it in self.said])

    def test_a_folder_whose_owner_has_no_account(self) -> None:
        with mock.patch.object(self.check, "_missing_spool", return_value=""), mock.patch.object(check, "owner_of", return_value="12345"):
            self.assertFalse(self.check.spool())
        self.assertEqual([f"{self.folder} belongs to user 12345, who has no account: chown -R uucp {self.folder}"], self.said)

    def test_a_shell_runs_no_path_of_the_spool(self) -> None:
        path = f"{self.folder}/$(id).db"
        os.symlink(self.put("x", "x"), path)
        self.check._settings = self.check._settings._replace(spool=path, log=f"{self.folder}/log")
        self.check._owner = user_name(os.geteuid())
        self.check._check_folder()
        self.assertEqual([f"'{path}-word' is missing or empty", f"'{path}' is no file"], [it.partition(",")[0] for it in self.said])

    def test_the_log(self) -> None:
        for path in "spool.db", "spool.db-word":
            self.put(path, "x", 0o600)
        self.check._settings = self.check._settings._replace(spool=f"{self.folder}/spool.db", log=f"{self.folder}/log")
        self.check._owner = user_name(os.geteuid())
        logs, link = f"{self.folder}/logs/log", f"{self.folder}/log"

        def found(*paths: str) -> None:
            self.said.clear()
            self.check._check_folder()
            self.assertEqual([f"{it}, the log, is no file of {self.check._owner}'s, but perhaps a link to another one" for it in paths], [it.partition(", so")[0] for it in self.said])

        found()
        os.symlink(logs, link)
        found()
        self.put("logs/log")
        found()
        os.remove(logs)
        os.symlink(self.put("roots"), logs)
        self.give(f"{self.folder}/roots")
        found(logs)
        os.lchown(link, 1, 1)
        found(link)
        for make in os.mkdir, os.mkfifo, lambda path: self.give(self.put("log")):
            os.rmdir(link) if os.path.isdir(link) and not os.path.islink(link) else os.remove(link)
            make(link)
            found(link)

    def test_no_page_has_root_give_away_what_a_link_leads_to(self) -> None:
        top = os.path.dirname(os.path.dirname(os.path.dirname(os.path.abspath(__file__))))
        for folder in "man", "docs", "calls/uuspool_calls", "fronts":
            for name in os.listdir(f"{top}/{folder}"):
                if name.endswith((".1", ".5", ".7", ".md", ".py")) or folder == "fronts":
                    with open(f"{top}/{folder}/{name}") as file:
                        self.assertEqual([], re.findall(r"(?<![.fl])chown\b(?! \\?-[hR]| there: ).*", file.read()), name)

    def test_no_line_leads_root_through_a_folder_that_others_may_replace(self) -> None:
        """They may put a link in its place, as to /etc."""
        self.put("keys/duke", "0a" * 32 + "\n", 0o640)
        for path in "spool.db", "spool.db-word":
            self.put(f"s/{path}", "x", 0o640)
        self.check._folder, self.check._owner = f"{self.folder}/s", user_name(os.geteuid())
        self.check._systems = frozenset(["duke"])
        self.check._settings = self.check._settings._replace(path=self.put("etc/uuspool.toml"), spool=f"{self.folder}/s/spool.db", seals=f"{self.folder}/keys")

        def lines() -> int:
            self.said.clear()
            self.check._check_folder()
            self.check._check_seals()
            self.assertEqual(2, len(self.said))
            return sum("chmod 600" in it for it in self.said)

        self.assertEqual(2, lines())
        self.give(self.folder)
        self.assertEqual(0, lines())
        self.assertIn(f"others than root may put a link in the place of {self.folder}/s: let it be in a folder of root's", self.said[0])
        self.assertIn("remove it as", self.said[1])
        os.chown(self.folder, 0, 0)
        os.rename(f"{self.folder}/keys", f"{self.folder}/s/keys")
        os.symlink("s/keys", f"{self.folder}/keys")
        self.assertEqual(2, lines())
        self.give(f"{self.folder}/s")
        self.assertEqual(1, lines())

    def test_what_deliveries_need(self) -> None:
        self.check._session.environment["UUSPOOL_PUBLIC"] = f"{self.folder}/public"
        self.check.deliveries()
        heads = f"{self.folder}/etc/commands is not there", f"The public folder {self.folder}/public is not there: mkdir -m 1777 {self.folder}/public && chown -h root "
        self.assertEqual([True, True], [line.startswith(head) for line, head in zip(self.said, heads)])
        self.give(self.folder)
        self.check._check_public_folders()
        self.assertEqual(f"The public folder {self.folder}/public is not there: make it as root", self.said[-1])
        os.chown(self.folder, 0, 0)
        os.mkdir(f"{self.folder}/public")
        self.said.clear()
        self.check._check_public_folders()
        self.assertEqual([], self.said)
        self.give(f"{self.folder}/public")
        self.check._check_public_folders()
        self.assertRegex(self.said[0], f"^The public folder {self.folder}/public is {user_name(1)}'s. If {user_name(1)} has a site, let this one have a folder of its own: ")

    def test_names_that_mailers_take_for_others(self) -> None:
        self.put("etc/forward", "mysite @Mysite.Example\n")
        self.check._own, self.check._systems = "mysite", frozenset(["mysite", "duke", "Duke", "MySite", "mysite.example", "LocalHost", "unc"])
        self.check._check_names()
        taken = [("LocalHost", "this site"), ("MySite", "this site"), ("duke", "Duke"), ("mysite.example", "this site")]
        self.assertEqual(taken, [tuple(it.removeprefix("Mailers take ").partition(":")[0].split(" for ")) for it in self.said])

    def test_systems_to_which_mail_goes_on(self) -> None:
        self.put("etc/forward", "# phs\nduke unc phs @example.org phs unc!x\nduke other\nmysite third\nunc *\n")
        self.check._own, self.check._systems = "mysite", frozenset(["mysite", "duke", "unc"])
        self.check._check_forward()
        odd, line = self.said
        self.assertEqual(f"{self.folder}/etc/forward: unc!x on the line of duke is no name of a system, and is passed over: correct it.", odd)
        self.assertRegex(line, f"^{self.folder}/etc/forward: mail of duke for phs is refused, because no system phs is defined: add it to {self.folder}/etc/sys, ")

    def test_commands_that_run_as_nobody_known(self) -> None:
        self.put("etc/commands", "lp /bin/true user=nosuchuser\nrmail /bin/true limit=x\n")
        self.check.deliveries()
        self.assertIn(f"{self.folder}/etc/commands: lp runs as nosuchuser, and there is no such account: adduser --system nosuchuser", self.said)
        self.assertIn(f"{self.folder}/etc/commands: rmail has limit=x, which is no number of minutes: what asks for it waits.", self.said)


class Clocks(Folder):
    def test_seconds_of_what_a_clock_shows(self) -> None:
        for zone in "UTC0", "<site>-5:45", "CET-1CEST,M3.5.0,M10.5.0/3", "EST5EDT,M3.2.0,M11.1.0":
            for moment in NOON, NOON + 183 * 86400, 1000000000:
                self.assertEqual(moment, clock.seconds(zone, clock.shown(zone, moment)), zone)

    def test_the_clock_of_the_machine(self) -> None:
        for text, rule in (b"TZif2\n\0\nCET-1CEST,M3.5.0,M10.5.0/3\n", "CET-1CEST,M3.5.0,M10.5.0/3"), (b"TZif2\n\0\n\n", "UTC0"), (b"x\ny\n", "UTC0"), (b"", "UTC0"):
            self.assertEqual(rule, clock.rule_of_machine(self.put("localtime", text)))
        self.assertEqual("UTC0", clock.rule_of_machine(f"{self.folder}/nowhere"))

    def test_the_variable_stays(self) -> None:
        before = os.environ.get("TZ"), time.tzname
        clock.seconds("EST5EDT,M3.2.0,M11.1.0", "2026-07-01 00:00:00")
        self.assertEqual(before, (os.environ.get("TZ"), time.tzname))
