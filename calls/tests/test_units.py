"""The units of the package, and its scripts."""
import contextlib
import glob
import os
import pty
import pwd
import re
import shutil
import subprocess
import sys
import unittest
from unittest import mock

from uuspool_calls import bundle, check, cli, files, processes, units
from uuspool_calls.errors import Stopped
from uuspool_calls.processes import kill_group

from .standins import Folder, Quiet

TOP = os.path.dirname(os.path.dirname(os.path.dirname(os.path.realpath(__file__))))
RUN_MAILERS = {"uuspool-night.service", "uuspool-expire.service"}
# By these systemd takes new rights from what a unit with `User=` runs (systemd.exec(5), NoNewPrivileges=).
NO_RIGHTS = re.compile(
    r"(?m)^(NoNewPrivileges|LockPersonality|MemoryDenyWriteExecute|PrivateDevices|Protect(Clock|Hostname|KernelLogs|KernelModules|KernelTunables)"
    r"|Restrict(AddressFamilies|Namespaces|Realtime|SUIDSGID)|SystemCall(Architectures|Filter|Log)|DynamicUser)="
)


class Units(unittest.TestCase):
    def test_a_mailer_keeps_its_rights(self) -> None:
        found = {}
        for path in glob.glob(f"{TOP}/examples/*.service"):
            with open(path, encoding="utf-8") as file:
                text = file.read()
            if re.search("(?m)^User=", text):
                found[os.path.basename(path)] = [it[1] for it in NO_RIGHTS.finditer(text)]
        self.assertEqual(RUN_MAILERS, {name for name, lines in found.items() if not lines})
        self.assertLess({*RUN_MAILERS}, {*found})

    def test_the_spools_user_lets_no_script_fail(self) -> None:
        for name, found in ("postinst", 2), ("postrm", 2):
            with open(f"{TOP}/packaging/{name}", encoding="utf-8") as file:
                lines = re.findall(r'(?m)^.*(?:ln|rm) -[a-zA-Z]+ .*"\$spool/.*$', file.read())
            self.assertEqual((found, []), (len(lines), [it for it in lines if "|| :" not in it]), name)

    def test_a_purge_takes_the_page(self) -> None:
        with open(f"{TOP}/examples/uuspool-page.service", encoding="utf-8") as unit, open(f"{TOP}/packaging/postrm", encoding="utf-8") as script:
            self.assertIn(f"    take_away /var/log/uuspool /var/lib/{re.findall('(?m)^StateDirectory=(.*)$', unit.read())[0]}\n", script.read())

    def test_a_mailer_delivers_to_homes(self) -> None:
        for name in RUN_MAILERS:
            with open(f"{TOP}/examples/{name}", encoding="utf-8") as file:
                self.assertEqual([], re.findall("(?m)^(?:ProtectHome|ProtectSystem=strict).*", file.read()), name)

    def test_a_backup_notes_itself_in_the_log(self) -> None:
        """Without that line all jobs of the copy come again. The package's log is in a folder of its own."""
        with open(f"{TOP}/examples/uuspool-backup.service", encoding="utf-8") as unit, open(f"{TOP}/packaging/postinst", encoding="utf-8") as script:
            (logs,) = re.findall(r"(?m)^spool=.* logs=(\S+)", script.read())
            self.assertIn(f"-{logs}", re.findall("(?m)^ReadWritePaths=(.*)$", unit.read())[0].split())

    def test_a_stop_is_no_failure(self) -> None:
        def stopped(session: object, words: object) -> int:
            raise Stopped

        status = cli.run(Quiet("/"), stopped, [])
        for name in "night", "expire", "metrics":
            with open(f"{TOP}/examples/uuspool-{name}.service", encoding="utf-8") as file:
                self.assertIn(f"\nSuccessExitStatus={status}\n", file.read(), name)


    def test_figures_say_that_what_they_ask_hangs(self) -> None:
        """What doesn't answer is ended before systemd ends all, also if it takes no notice at first."""
        with open(f"{TOP}/examples/uuspool-metrics.service", encoding="utf-8") as file:
            text = file.read()
        limit, timeout = (int(re.findall(f"(?m)^{key}=(.*)$", text)[0]) for key in ("Environment=UUSPOOL_CALL_LIMIT", "TimeoutStartSec"))
        self.assertLess(limit + processes._GRACE + processes._MARGIN, timeout)
        with open(f"{TOP}/packaging/cron", encoding="utf-8") as file:
            (limit,) = re.findall(r"(?m)^# \* \* \* \* \* root UUSPOOL_CALL_LIMIT=(\d+) /usr/bin/uuspool-check", file.read())
        self.assertLess(int(limit) + processes._GRACE + processes._MARGIN, 60)

    @unittest.skipUnless(os.geteuid() == 0 and shutil.which("setpriv"), "only root runs a program as another user, and gives up rights before")
    def test_figures_end_what_another_user_runs(self) -> None:
        """What prints without end is ended with the rights that the unit leaves."""
        with open(f"{TOP}/examples/uuspool-metrics.service", encoding="utf-8") as file:
            rights = re.findall("(?m)^CapabilityBoundingSet=(.*)$", file.read())[0].lower().replace("cap_", "+").split()
        script = "import sys\nfrom uuspool_calls import cli\nsys.exit(cli.main('x', lambda session, words: session.run_as('daemon', words).status))"
        words = ["setpriv", "--bounding-set", ",".join(["-all", *rights]), sys.executable, "-c", script, "yes"]
        ran = subprocess.run(words, env={**os.environ, "PYTHONPATH": f"{TOP}/calls"}, stderr=subprocess.PIPE, text=True, timeout=60)
        self.assertEqual((75, "x: yes, run as daemon, wrote more than 16 MiB"), (ran.returncode, ran.stderr.partition(": try")[0]))


class Configured(Folder):
    def test_what_the_spools_user_stops_holds_up_no_upgrade(self) -> None:
        with open(f"{TOP}/packaging/postinst", encoding="utf-8") as file:
            (line,) = re.findall("(?m)^as_user\\(\\) .*$", file.read())
        program = self.put("as-owner", "#!/bin/sh\ntrap '' TERM\nexec sleep 100\n", 0o755)
        line = line.replace("/usr/lib/uuspool/as-owner", program).replace(" 60 ", " 1 ").replace(" 10 ", " 1 ")
        ran = subprocess.run(["sh", "-c", f"spool=x\n{line}\nas_user uuspool init; echo $?"], stdout=subprocess.PIPE, text=True, timeout=20)
        self.assertEqual("137\n", ran.stdout)

    def test_what_the_spools_user_prints_without_end_fills_no_memory(self) -> None:
        with open(f"{TOP}/packaging/postinst", encoding="utf-8") as file:
            (line,) = re.findall("(?m)^as_user\\(\\) .*$", file.read())
        if os.geteuid():
            self.skipTest("only root runs a program as another user")
        with open(f"{TOP}/calls/as-owner", encoding="utf-8") as file:
            program = self.put("as-owner", file.read().replace("/usr/local/lib/uuspool", f"{TOP}/calls"), 0o755)
        line = line.replace("/usr/lib/uuspool/as-owner", program).replace(" uucp ", " daemon ")
        ran = subprocess.run(["sh", "-c", f"spool=x\n{line}\nas_user head -c 300000 /dev/zero; echo $?; as_user head -c 50000 /dev/zero; echo $?"], stdout=subprocess.PIPE, text=True, timeout=60)
        self.assertEqual("141\n0\n", ran.stdout)


class Purged(Folder):
    """What postrm does, below a folder."""

    def purge(self, **variables: str) -> tuple[int, str]:
        """Its status, and what it says."""
        with open(f"{TOP}/packaging/postrm", encoding="utf-8") as file:
            text = re.sub(r"(?<![\w.-])/(?:var|etc|run)/", lambda it: f"{self.folder}{it[0]}", file.read())
        self.put("bin/getent", f"#!/bin/sh\necho uuspool:x:10:10::{self.folder}/var/lib/uuspool:/bin/sh\n", 0o755)
        self.put("bin/userdel", "#!/bin/sh\n", 0o755)
        path = self.put("postrm", text, 0o755)
        ran = subprocess.run(["sh", path, "purge"], env={"PATH": f"{self.folder}/bin:/usr/bin:/bin", **variables}, stdout=subprocess.PIPE, stderr=subprocess.STDOUT, text=True, timeout=20)
        return ran.returncode, ran.stdout.replace(f"{self.folder}/", "/")

    def test_what_a_purge_leaves(self) -> None:
        for path in "var/log/uuspool/log", "var/spool/uuspool/spool.db", "etc/uuspool/keys/duke", "var/lib/uuspool-page/index.html", "var/spool/cron/crontabs/uuspool":
            self.put(path)
        self.assertEqual((0, "uuspool: the spool stays in /var/spool/uuspool\n"), self.purge())
        self.assertEqual(["var/spool/uuspool/spool.db"], sorted(os.path.relpath(f"{at}/{it}", self.folder) for at, _, names in os.walk(f"{self.folder}/var") for it in names))
        self.assertEqual((0, ""), self.purge(UUSPOOL_PURGE="yes"))
        self.assertEqual(["cron"], os.listdir(f"{self.folder}/var/spool"))

    def test_what_cannot_be_removed_fails_no_purge(self) -> None:
        for path in "var/log/uuspool/log", "var/spool/uuspool/spool.db", "etc/uuspool/calls/duke":
            self.put(path)
        self.put("bin/rm", "#!/bin/sh\ncase \"$*\" in *log*) exec 2>&1; echo busy; /bin/rm \"$@\"; exit 1 ;; esac\nexec /bin/rm \"$@\"\n", 0o755)
        status, said = self.purge(UUSPOOL_PURGE="yes")
        self.assertEqual((0, "busy\nuuspool: not all of these could be removed: /var/log/uuspool"), (status, said.partition(" /var/lib")[0]))
        self.assertEqual(([], []), (os.listdir(f"{self.folder}/var/spool"), os.listdir(f"{self.folder}/etc/uuspool")))

    def test_who_makes_files_without_end_holds_up_no_purge(self) -> None:
        for path in "var/log/uuspool/log", "var/lib/uuspool/.ssh/authorized_keys", "etc/uuspool/calls/duke":
            self.put(path)
        self.put("bin/rm", "#!/bin/sh\ncase \"$*\" in */log/*) trap '' TERM; exec sleep 100 ;; esac\nexec /bin/rm \"$@\"\n", 0o755)
        self.put("bin/timeout", "#!/bin/sh\nshift 3\ncase \"$*\" in */log/*) exec /usr/bin/timeout -k 1 1 \"$@\" ;; esac\nexec \"$@\"\n", 0o755)
        status, said = self.purge()
        self.assertEqual((0, "uuspool: not all of these could be removed: /var/log/uuspool /var/lib/uuspool-page"), (status, said.splitlines()[-1]))
        self.assertEqual(([], []), (os.listdir(f"{self.folder}/var/lib/uuspool"), os.listdir(f"{self.folder}/etc/uuspool")))

    def test_what_is_mounted_stays(self) -> None:
        self.put("etc/uuspool/calls/duke")
        place = f"{self.folder}/var/log/uuspool/below"
        os.makedirs(place)
        if os.geteuid() or subprocess.run(["mount", "-t", "tmpfs", "none", place], stderr=subprocess.DEVNULL).returncode:
            self.skipTest("no mount can be made")
        try:
            self.put("var/log/uuspool/below/mail")
            status, said = self.purge()
            self.assertEqual((0, True, ["mail"]), (status, "not all of these" in said, os.listdir(place)))
        finally:
            subprocess.run(["umount", place], check=True)


ROTATED = "/var/log/uuspool"
LOG = "2026-11-28 10:00:00 duke ann 7 done send\n"


class Rotated(Folder):
    """The package's lines for logrotate, below lines of the machine that have old logs compressed."""

    def setUp(self) -> None:
        super().setUp()
        if os.geteuid() or not shutil.which("logrotate", path="/usr/sbin"):
            self.skipTest("logrotate is not here, or this is not root")
        os.chmod(self.folder, 0o755)
        self.logs = f"{self.folder}/logs"
        for path in self.logs, f"{self.folder}/old":
            os.mkdir(path)
            shutil.chown(path, "uucp", "uucp")
        with open(f"{TOP}/packaging/logrotate", encoding="utf-8") as file:
            text = file.read()
        self.assertIn(f"{ROTATED}/log {{", text)
        self.put("package", text.replace(ROTATED, self.logs))
        self.ours("log", LOG)

    def ours(self, name: str, text: str) -> None:
        shutil.chown(self.put(f"logs/{name}", text), "uucp")

    def rotate(self, machine: str = "") -> None:
        """Rotates, with these lines of the machine before."""
        self.put("conf", f"compress\n{machine}\ninclude {self.folder}/package\n")
        line = ["/usr/sbin/logrotate", "-f", "-s", f"{self.folder}/state", f"{self.folder}/conf"]
        with subprocess.Popen(line, start_new_session=True) as process:
            try:
                self.assertEqual(0, process.wait(20))
            finally:
                kill_group(process.pid)

    def test_old_logs_are_where_uulog_reads_them(self) -> None:
        self.rotate(f"dateext\nstart 0\nolddir {self.folder}/old")
        self.assertEqual(["log", "log.1"], sorted(os.listdir(self.logs)))
        self.assertEqual(LOG.encode(), self.bytes_of("logs/log.1"))
        its = os.stat(f"{self.logs}/log")
        self.assertEqual((0o600, "uucp"), (its.st_mode & 0o777, pwd.getpwuid(its.st_uid).pw_name))

    def test_a_pipe_holds_up_no_rotation(self) -> None:
        for name in "log.1", "log.2", "log.4":
            os.mkfifo(f"{self.logs}/{name}")
            shutil.chown(f"{self.logs}/{name}", "uucp")
        self.rotate()
        self.assertEqual(LOG.encode(), files.read_bytes(f"{self.logs}/log.1"))

    def test_a_link_leads_to_no_file_of_roots(self) -> None:
        victim = self.put("victim", "root's")
        for name in "log.1", "log":
            self.ours(name, LOG)
            os.remove(f"{self.logs}/{name}")
            os.symlink(victim, f"{self.logs}/{name}")
        self.rotate()
        self.assertEqual(b"root's", self.bytes_of("victim"))


ENABLED = {"LoadState": "loaded", "UnitFileState": "enabled", "ActiveState": "active", "SubState": "running", "Result": "success"}


class Watched(Folder):
    """What uuspool-check says of units."""

    def found(self, **units_of: dict[str, str]) -> list[str]:
        """What is said if systemd knows these units, with these values beside those of one that runs."""
        parts = [{"Id": f"uuspool-{name.replace('_', '.')}", **ENABLED, **values} for name, values in units_of.items()]
        text = "\n\n".join("\n".join(f"{key}={value}" for key, value in it.items()) for it in parts)
        self.put("bin/systemctl", f"#!/bin/sh\n[ \"$1\" = show ] || exit\ncat <<'END'\n{text}\nEND\n", 0o755)
        return [*units.sentences(Quiet(self.folder, PATH=f"{self.folder}/bin:{os.environ['PATH']}"))]

    def test_what_runs_or_need_not(self) -> None:
        self.assertEqual([], self.found(night_service={}, page_timer={}, page_service={"ActiveState": "inactive", "SubState": "dead"}))
        off = {"UnitFileState": "disabled", "ActiveState": "failed", "SubState": "failed"}
        self.assertEqual([], self.found(night_service=off, expire_timer=off, expire_service=off))
        self.assertEqual([], self.found())

    def test_the_night(self) -> None:
        for active, sub, begins in (
            ("failed", "failed", "uuspool-night.service failed (exit-code), so no neighbour is called: journalctl"),
            ("inactive", "dead", "uuspool-night.service is enabled, but does not run, so no neighbour is called: systemctl start uuspool-night.service"),
            ("activating", "auto-restart", "uuspool-night.service ends as soon as systemd starts it, so no neighbour is called: journalctl"),
        ):
            found = self.found(night_service={"ActiveState": active, "SubState": sub, "Result": "exit-code"})
            self.assertEqual([begins], [it[: len(begins)] for it in found])

    def test_timers(self) -> None:
        stopped, failed = {"ActiveState": "inactive", "SubState": "dead"}, {"ActiveState": "failed", "Result": "timeout"}
        for name in "backup", "expire", "metrics", "page":
            said = self.found(**{f"{name}_timer": stopped, f"{name}_service": stopped})
            self.assertEqual([f"uuspool-{name}.timer is enabled, but does not run, so nothing starts uuspool-{name}.service: systemctl restart uuspool-{name}.timer"], said)
            said = self.found(**{f"{name}_timer": {}, f"{name}_service": failed})
            self.assertEqual([f"uuspool-{name}.service failed when it ran last (timeout)"], [it.partition(":")[0] for it in said])
            said = self.found(**{f"{name}_timer": {}, f"{name}_service": {"LoadState": "masked", "UnitFileState": "masked"}})
            self.assertEqual([f"uuspool-{name}.service is masked, so uuspool-{name}.timer starts nothing"], [it.partition(":")[0] for it in said])

    def test_a_check_says_so(self) -> None:
        looks = check.Check(Quiet(self.folder))
        others = {name: mock.Mock() for name in ("_check_zone", "_check_accounts", "_check_login", "_check_su", "_runs_nights")}
        for has_systemd in True, False:
            with mock.patch.multiple(check.Check, _has_systemd=lambda looks: has_systemd, _has_unit=lambda looks: False, **others), mock.patch.object(units, "sentences", return_value=["it failed"]):
                looks.machine()
            self.assertEqual(has_systemd, "it failed" in looks._session.printed)
            looks._session.printed.clear()


class Completions(Folder):
    """What bash makes of a line when somebody types a tab."""

    @unittest.skipUnless(shutil.which("bash"), "without bash nobody completes a line")
    def test_a_name_of_a_file_is_one_word(self) -> None:
        os.mkdir(f"{self.folder}/ba;touch made;$(touch made)`touch made` x")
        heads = "uuspool -c", "uuspool-backup", "uuspool-restore", "uuspool-setup duke folder", "uuspool-setup duke command", "uuspool-sys", "uuspool-check --metrics"
        lines = [f". {TOP}/completions/{name}.bash" for name in ("uuspool", "uuspool-call")]
        lines += [f"{name}() {{ printf '%s\\n' \"${{@: -1}}\" >>said; }}" for name in {it.split()[0] for it in heads}]
        lines += [f"{head} {self.folder}/ba\t" for head in heads] + ["exit"]
        process, terminal = pty.fork()
        if not process:
            os.chdir(self.folder)
            os.execvpe("bash", ["bash", "--norc", "-i"], {"PATH": os.environ["PATH"], "TERM": "dumb", "HISTFILE": ""})
        os.write(terminal, "".join(f"{it}\n" for it in lines).encode())
        with contextlib.suppress(OSError):
            while os.read(terminal, 1 << 16):
                pass
        os.close(terminal)
        os.waitpid(process, 0)
        self.assertEqual(["ba;touch made;$(touch made)`touch made` x", "said"], sorted(os.listdir(self.folder)))
        self.assertEqual([f"{self.folder}/ba;touch made;$(touch made)`touch made` x/"] * len(heads), self.bytes_of("said").decode().splitlines())


class Pages(Folder):
    """Lines of the pages that root types."""

    def test_mailers_keep_capitals(self) -> None:
        with open(f"{TOP}/docs/mailers.md", encoding="utf-8") as file:
            page = file.read()
        self.assertEqual(["Fqh"], re.findall(r"(?m)^ +flags=(\w+) ", page))
        (name,) = re.findall(r"(?m)^    (\w+):\n      driver = pipe\n(?:      .*\n)*?      command = .*LOCAL_PART", page)
        self.assertRegex(page, f"(?m)^    {name}:\n      driver = accept\n(      .*\n)*      caseful_local_part\n")

    def test_sendmail_runs_uux_alone_for_the_spools_user(self) -> None:
        """Without the flag S a local user who sends mail runs it. Its mailers get 100 recipients if nothing says otherwise (r=)."""
        with open(f"{TOP}/docs/mailers.md", encoding="utf-8") as file:
            found = dict(re.findall(r"(?m)^    define\(`(\w+)', `(.*)'\)$", file.read()))
        self.assertEqual({"UUCP_MAILER_PATH", "UUCP_MAILER_FLAGS", "UUCP_MAILER_ARGS", "UUCP_MAILER_MAX"}, {*found})
        self.assertEqual(("S", "r=60"), (found["UUCP_MAILER_FLAGS"], found["UUCP_MAILER_ARGS"].partition("($u), ")[2]))

    def test_exim_keeps_mail_if_uux_cannot_begin(self) -> None:
        with open(f"{TOP}/docs/mailers.md", encoding="utf-8") as file:
            found = re.findall(r"(?m)^      command = /bin/sh -c '(.*)'.*\n(?:      .*\n)*?      temp_errors = (.*)$", file.read())
        uux = "/usr/local/lib/uuspool/uux"
        self.assertEqual(2, len([command for command, _ in found if uux in command]))
        for command, kept in found:
            self.assertLessEqual({"1", "2"}, {*kept.split(":")})  # (of a shell that can't fork)
            script = command.replace("\\$", "$").replace('\\"', '"').replace(uux, f"{self.folder}/uux")
            for text, mode, is_kept in ("", 0, True), ("exit 75", 0o644, True), ("exit 75", 0o755, True), ("kill -9 $$", 0o755, True), ("exit 64", 0o755, False), ("exit 69", 0o755, False):
                files.remove(f"{self.folder}/uux")
                if text:
                    self.put("uux", f"#!/bin/sh\n{text}\n", mode)
                ran = subprocess.run(["sh", "-c", script, "duke", "joe"], stderr=subprocess.DEVNULL, check=False)
                self.assertEqual(is_kept, str(ran.returncode) in kept.split(":"), (text, mode, ran.returncode))

    def test_the_script_that_answers_a_bundle_leaves_no_file(self) -> None:
        with open(f"{TOP}/docs/bundles.md", encoding="utf-8") as file:
            script = re.findall(r"(?m)^    #!/bin/sh\n((?:    .*\n)+)", file.read())[0].replace("/var/spool/uuspool", self.folder)
        self.put("bin/uuspool", '#!/bin/sh\necho "$1 $(wc -c)"\n', 0o755)
        self.put("tmp/x")
        env = {"PATH": f"{self.folder}/bin:/usr/bin:/bin", "TMPDIR": f"{self.folder}/tmp"}
        ran = subprocess.run(["sh", "-c", script], input=bytes(5_000_000), env=env, stdout=subprocess.PIPE, stderr=subprocess.STDOUT, check=True)
        self.assertEqual([f"{it} {bundle.MOST + 1}" for it in ("unpack", "settle", "answer")], ran.stdout.decode().splitlines())
        self.assertEqual(["x"], os.listdir(f"{self.folder}/tmp"))

    def test_what_comes_by_hand_is_bounded(self) -> None:
        with open(f"{TOP}/docs/bundles.md", encoding="utf-8") as file:
            lines = re.findall(r"(?m)^    (.*>(?:back|in)\b.*)$", file.read())
        self.assertEqual(["ssh", "(ulimit"], [it.split()[0] for it in lines])
        for name in "ssh", "gpg":
            self.put(f"bin/{name}", "#!/bin/sh\nexec head -c 50000000 /dev/zero\n", 0o755)
        self.put("bin/uuspool", "#!/bin/sh\ntouch unpacked\n", 0o755)
        for name in "out", "to-mysite":
            self.put(name)
        for line in lines:
            subprocess.run(["sh", "-c", line], cwd=self.folder, env={"PATH": f"{self.folder}/bin:/usr/bin:/bin"}, stderr=subprocess.DEVNULL, check=False)
        self.assertEqual(bundle.MOST + 1, os.path.getsize(f"{self.folder}/back"))
        self.assertLess(os.path.getsize(f"{self.folder}/in"), 10_000_000)
        self.assertFalse(os.path.exists(f"{self.folder}/unpacked"))
