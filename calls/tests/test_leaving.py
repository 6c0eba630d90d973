"""By what a neighbour's command leaves the unit."""
import os
import pwd
from unittest import mock

from uuspool_calls import check, leaving

from .standins import Folder, Quiet

OWNER = pwd.getpwuid(1).pw_name


def account(name: str, home: str, number: int = 1) -> pwd.struct_passwd:
    return pwd.struct_passwd((name, "x", number, number, "", home, "/bin/sh"))


class Leaving(Folder):
    def setUp(self) -> None:
        super().setUp()
        os.chmod(self.folder, 0o755)
        self.accounts = [account(OWNER, "/")]
        self.put("scope", "1\n")

    def found(self) -> list[str]:
        """What is said of the user OWNER, behind what each sentence has first."""
        session = Quiet(self.folder, PATH=f"{self.folder}/bin:{os.environ['PATH']}")
        crontab, at = (leaving.Scheduler(it, *(f"{self.folder}/{it}.{end}" for end in ("allow", "deny", "kept"))) for it in ("crontab", "at"))
        its = {"_ALIASES": f"{self.folder}/aliases", "_SCOPE": f"{self.folder}/scope", "CRONTAB": crontab, "AT": at}
        with mock.patch.multiple(leaving, **its), mock.patch.object(pwd, "getpwall", return_value=self.accounts):
            said = [*leaving.sentences(session, OWNER)]
        self.assertEqual([], [it for it in said if "a neighbour's command leaves the unit uuspool-night" not in it])
        return [it.replace(f"{self.folder}/", "").replace(OWNER, "OWNER") for it in said]

    def ends(self) -> list[str]:
        """What each says to do."""
        return [it.rpartition("night: ")[2] for it in self.found()]

    def systemctl(self, state: str, active: str = "inactive") -> None:
        asked = f'case "$*" in "is-enabled user@1.service") echo {state} ;; "is-active user@1.service") echo {active} ;; esac'
        self.put("bin/systemctl", f"#!/bin/sh\n{asked}\n", 0o755)

    def home(self, name: str, owner: int = 0, mode: int = 0o755) -> str:
        """A folder of this user's."""
        os.makedirs(f"{self.folder}/{name}", exist_ok=True)
        os.chmod(f"{self.folder}/{name}", mode)
        if owner:
            self.give(f"{self.folder}/{name}")
        return f"{self.folder}/{name}"

    def test_the_manager_of_the_user(self) -> None:
        """Also without a session of this user's, since logind lets each command ask for the manager."""
        line = "systemctl mask --now user@1.service"
        for state, found in ("static", [line]), ("enabled", [line]), ("masked", []), ("masked-runtime", []), ("not-found", []), ("", []):
            self.systemctl(state)
            self.assertEqual(found, self.ends(), state)
        self.systemctl("masked", "active")
        self.assertEqual(["systemctl stop user@1.service"], self.ends())

    def test_homes_that_the_user_may_write(self) -> None:
        self.systemctl("masked")
        self.accounts += [account("unc", self.home("of-unc", 1)), account("ann", self.home("of-ann", mode=0o777), 2), account("phs", f"{self.home('made', 1)}/missing")]
        said = self.found()
        self.assertEqual(["OWNER may write of-unc", "OWNER may write made"], [it.partition(",")[0] for it in said])
        self.assertIn("type usermod -d / unc, and", said[0])
        self.assertIn("files in made/missing, the home of the account phs", said[1])
        os.chown(f"{self.folder}/of-unc", 0, 0)
        os.chown(f"{self.folder}/made", 0, 0)
        self.assertEqual([], self.found())

    def test_a_home_behind_a_link(self) -> None:
        self.systemctl("masked")
        os.symlink(self.home("far", 1), f"{self.folder}/near")
        self.accounts.append(account("unc", f"{self.folder}/near"))
        self.assertIn("OWNER may write near, and", self.found()[0])
        os.symlink(f"{self.home('of-root')}", f"{self.folder}/far/below")
        self.accounts[-1] = account("unc", f"{self.folder}/far/below")
        self.assertIn("OWNER may write far, and", self.found()[0])

    def test_what_is_read_at_a_home_of_roots(self) -> None:
        self.systemctl("masked")
        home = self.home("home")
        self.accounts += [account("uuspool", home), account("unc", home)]
        for name in ".ssh", ".config/systemd/user", ".forward":
            self.home(f"home/{name}", 1) if name != ".forward" else self.give(self.put("home/.forward"))
            said = self.found()
            self.assertEqual([f"OWNER may write home/{name}"] * 2, [it.partition(",")[0] for it in said], name)
            self.assertEqual([], [it for it in said if "usermod" in it])
            os.chown(f"{home}/{name}", 0, 0)
        self.assertEqual([], self.found())
        self.give(home)
        uuspool, unc = self.found()
        self.assertNotIn("usermod", uuspool)
        self.assertIn("usermod -d / unc", unc)

    def test_what_the_aliases_of_a_mailer_use(self) -> None:
        self.systemctl("masked")
        ours, roots = self.home("ours", 1), self.home("roots")
        for text, found in (
            (f"x: y\n#z: {ours}/a\nOWNER: root\n", []),
            (f"news: \"|{roots}/a -x\", joe\n", []),
            (f"news: \"|{ours}/a -x\", joe\n", [f"{ours}/a"]),
            (f"x:joe,\n  :include:{ours}/list\nb: {ours}/box,|{ours}/prog\n", [f"{ours}/list", f"{ours}/box", f"{ours}/prog"]),
        ):
            self.put("aliases", text)
            self.assertEqual([it.replace(f"{self.folder}/", "") for it in found], [it.split()[3].strip(",") for it in self.found()], text)

    def test_who_may_enter_other_processes(self) -> None:
        self.systemctl("masked")
        line = "sysctl -w kernel.yama.ptrace_scope=1, and let a file in /etc/sysctl.d say kernel.yama.ptrace_scope = 1."
        for text, found in ("0\n", [line]), ("1\n", []), ("3\n", []):
            self.put("scope", text)
            self.assertEqual(found, self.ends(), text)
        os.remove(f"{self.folder}/scope")
        self.assertEqual(["the kernel has no Yama, so begin one that has it, with yama in its list lsm=."], self.ends())

    def test_who_may_schedule(self) -> None:
        self.systemctl("masked")
        for name in "crontab", "at":
            self.put(f"bin/{name}", "#!/bin/sh\n", 0o755)
        self.assertEqual(["write the line OWNER into crontab.deny."], self.ends())
        add = ["add the line OWNER to {}.deny."]
        for text, end in (OWNER, []), ("x", add), (f"{OWNER} x", add), (f"{OWNER} ", add), (f"{OWNER}\r", add), (f"{OWNER} # x", add):
            for name in "crontab", "at":
                self.put(f"{name}.deny", f"y\n{text}\n")
            self.assertEqual([it.format(name) for name in ("crontab", "at") for it in end], self.ends())
        self.put("crontab.allow", "x\n")
        self.put("at.allow", f"{OWNER}\n")
        self.assertEqual(["take the line OWNER out of at.allow."], self.ends())

    def test_who_may_schedule_by_another_name(self) -> None:
        self.systemctl("masked")
        self.accounts += [account("uuspool", "/"), account("ann", "/", 2)]
        for name in "crontab", "at":
            self.put(f"bin/{name}", "#!/bin/sh\n", 0o755)
            self.put(f"{name}.deny", f"{OWNER}\n")
        self.assertEqual(["add the line uuspool to crontab.deny."], self.ends())
        self.put("crontab.deny", f"{OWNER}\nuuspool\n")
        self.assertEqual([], self.ends())

    def test_what_was_scheduled_before(self) -> None:
        self.systemctl("masked")
        self.accounts += [account("uuspool", "/"), account("ann", "/", 2)]
        for name in "ann", "uuspool", OWNER:
            self.put(f"crontab.kept/{name}")
        self.put("at.kept/.SEQ")
        lines = [f"write root's lines in it into a file of /etc/cron.d, and type crontab -r -u {name}." for name in ("OWNER", "uuspool")]
        self.assertEqual(lines, self.ends())
        self.give(self.put("at.kept/a0000101c8c769"))
        self.assertEqual([*lines, "atq lists them, and atrm removes them."], self.ends())

    def test_only_what_a_unit_confines_leaves_one(self) -> None:
        looks = check.Check(Quiet(self.folder))
        looks._owner = pwd.getpwuid(os.geteuid()).pw_name
        parts = {name: mock.Mock() for name in ("_check_zone", "_check_accounts", "_check_login", "_check_su", "_runs_nights")}
        for has_unit in True, False:
            with mock.patch.multiple(check.Check, _has_unit=lambda looks: has_unit, **parts), mock.patch.object(leaving, "sentences", return_value=["by this"]):
                looks.machine()
            self.assertEqual(has_unit, "by this" in looks._session.printed)
            looks._session.printed.clear()
