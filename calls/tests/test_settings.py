"""Finding the site."""
import re
import resource

from uuspool_calls import check, cli, page, settings
from uuspool_calls.errors import LATER, Failure
from uuspool_calls.processes import Child

from .standins import SITE, Folder, Quiet


class Settings(Folder):
    def test_what_the_program_prints(self) -> None:
        found = settings.read(SITE.format(self.folder))
        self.assertEqual(("mysite", f"{self.folder}/uuspool.toml", self.folder), (found.name, found.path, found.start))
        self.assertEqual((f"{self.folder}/s/a b.db", f"{self.folder}/s", f"{self.folder}/s/log"), (found.spool, found.folder, found.log))

    def test_a_path_is_no_line_of_its_own(self) -> None:
        """The spool's user names it, and root would work at another site, and believe that root wrote these settings."""
        for sign in "\r\v\f\x1c\x1d\x1e\x85\u2028\u2029":
            path = f"/k{sign}settings /etc/uuspool/uuspool.toml{sign}spool /root/spool.db"
            found = settings.read(f"{SITE.format(self.folder)}seals {path}\n")
            self.assertEqual((f"{self.folder}/uuspool.toml", f"{self.folder}/s/a b.db", path), (found.path, found.spool, found.seals), repr(sign))

    def test_clocks(self) -> None:
        for line, zone in (
            ("", "<site>-0:0"), ("offset 345", "<site>-5:45"), ("offset -300", "<site>+5:0"), ("zone CET-1CEST", "CET-1CEST"), ("offset 0", "<site>-0:0"),
        ):  # fmt: skip
            self.assertEqual(zone, settings.read(f"{SITE.format(self.folder)}{line}\n").zone, line)

    def test_the_limit(self) -> None:
        for line, limit in ("", 0), ("limit 1048576", 1048576):
            self.assertEqual(limit, settings.read(f"{SITE.format(self.folder)}{line}\n").limit)

    def test_a_program_of_another_version(self) -> None:
        with self.assertRaisesRegex(settings.NoSite, "says no log"):
            settings.read(SITE.format(self.folder).partition("log")[0])

    def test_what_the_program_refuses(self) -> None:
        session = Quiet(self.folder)
        with self.assertRaisesRegex(settings.NoSite, "bin/uuspool: No such file"):
            settings.find(session)
        self.put("bin/uuspool", "#!/bin/sh\n[ $* = site ] && echo 'uuspool: cannot read /x' >&2\nexit 5\n", 0o755)
        with self.assertRaisesRegex(settings.NoSite, "^uuspool: cannot read /x$"):
            settings.find(session)

    def test_a_program_that_is_killed(self) -> None:
        session = Quiet(self.folder)
        for script, ended in ("kill -KILL $$", 137), ("ulimit -t 1; while :; do :; done", 137), ("kill -SEGV $$", 139), ("exit 4", 4):
            self.put("bin/uuspool", f"#!/bin/sh\n{script}\n", 0o755)
            with self.assertRaisesRegex(Failure, f"^nobody knows which site this is, because `.*/bin/uuspool site` ended with status {ended}: try again") as caught:
                settings.find(session)
            self.assertEqual((LATER, False), (caught.exception.status, isinstance(caught.exception, settings.NoSite)))
        self.assertEqual((LATER, 3), (cli.run(session, check.run, []), cli.run(session, page.run, [])))
        self.assertEqual(([], 2), (session.printed, len(session.said)))

    def test_unknown_keys_have_their_lines(self) -> None:
        path = self.put("uuspool.toml", 'name = "a"\n"timezone" = "UTC"\nspool = "spool.db"\n[more]\nx = 1\n')
        self.assertEqual([(2, "timezone"), (4, "more")], settings.unknown_keys(path))
        self.assertEqual([[]] * 2, [settings.unknown_keys(it) for it in (self.put("other", "["), f"{self.folder}/nothing")])

    def test_no_settings_take_much_memory(self) -> None:
        path = self.put("uuspool.toml", f'name = "a"\n  more = 1\nx = "{"x" * 6000}"\ny.{"a." * 40_000}a = 1\n')

        def look() -> int:
            with open("/proc/self/status", encoding="ascii") as file:
                used = 1024 * int(re.findall(r"VmSize:\s+(\d+)", file.read())[0])
            resource.setrlimit(resource.RLIMIT_AS, (used + (1 << 28), used + (1 << 28)))
            return int(settings.unknown_keys(path) != [(2, "more"), (3, "x")])

        self.assertEqual(0, Child(look).wait())
