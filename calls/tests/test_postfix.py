"""Postfix's table of the hosts of the map."""
import os
import pwd
from unittest import mock

from uuspool_calls import forward, postfix
from uuspool_calls.errors import Failure

from .standins import SITE, Folder, Quiet

HOSTS = "duke", "phs", "Mysite", "LocalHost", "MAIL", "other", "there", "gw.example", "GW.named", "[^ ]*", ".*", "a|b", "a/b", "a b", "a_b", "unc", "\u212aelvin"
OTHERS = (
    "c\tduke!a${1}!%s\nd\tduke\ne\tduke!unc!E!%s\n"
    "SYS\tsys!SYS!%s\nSys\tother!Sys!%s\nsys\tsys!%s\nsYs\tduke!sYs!%s\nTwo\tduke!Two!%s\ntwo\tduke!unc!two!%s\nhere\tMail!here!%s\nsYS\tsys!sYS!%s\n"
)
MADE = [(host, "${1}@duke") for host in ("duke", "phs", "gw\\.named", "a_b", "unc")] + [("e", "unc!E!${1}@duke"), ("sys", "${1}@sys"), ("two", "Two!${1}@duke")]


class Table(Folder):
    def setUp(self) -> None:
        super().setUp()
        self.put("uuspool.toml")
        os.mkdir(f"{self.folder}/s")
        os.chmod(self.folder, 0o755)
        self.routes("".join(f"{host}\tduke!%s\n" for host in HOSTS) + OTHERS)
        self.put("bin/postconf", "#!/bin/sh\necho 'there.example, other,x, localhost'\n", 0o755)
        names = {"_DOMAINS": self.put("map-domains", "gw.Named\n")}
        self.enterContext(mock.patch.multiple(postfix, **names))
        self.enterContext(mock.patch.object(forward, "_MAILNAME", self.put("mailname", "Mail\n")))
        self.enterContext(mock.patch.object(os, "uname", return_value=mock.Mock(nodename="there.example", machine=os.uname().machine)))
        self.addCleanup(os.chdir, os.getcwd())

    def routes(self, text: str, end: str = "") -> None:
        """What the program prints, and what it does then."""
        self.put("routes", text)
        site = SITE.format(self.folder)
        routes = f"cat {self.folder}/routes; {end}"
        self.put("bin/uuspool", f"#!/bin/sh\nlast() {{ shift $(($# - 1)); echo $1; }}\ncase $(last \"$@\") in site) cat <<'END'\n{site}END\n;; routes) id -un >{self.folder}/s/who; {routes} ;; esac\n", 0o755)

    def run_it(self, *words: str) -> int:
        session = Quiet(self.folder)
        session.environment["PATH"] = f"{self.folder}/bin:/usr/bin:/bin"
        session.program = f"{self.folder}/bin/uuspool"
        return postfix.run(session, words)

    def table(self) -> list[str]:
        return sorted(self.bytes_of("paths").decode().splitlines())

    def test_it_has_other_hosts_alone(self) -> None:
        self.assertEqual(0, self.run_it(f"{self.folder}/paths"))
        self.assertEqual(sorted(f"/^(.*)@{host}$/\t{path}" for host, path in MADE), self.table())
        self.assertEqual(0o644, os.stat(f"{self.folder}/paths").st_mode & 0o777)
        os.remove(f"{self.folder}/map-domains")
        self.run_it(f"{self.folder}/paths")
        self.assertFalse([it for it in self.table() if "named" in it])

    def test_it_stays_if_nobody_knows_the_routes_or_the_names_of_this_machine(self) -> None:
        self.put("paths", "old")
        for end in "exit 1", "kill -9 $$", "head -c 10000000 /dev/zero":
            self.routes("phs\tduke!%s\n", end)
            with self.assertRaisesRegex(Failure, "^uuspool routes, run as .*, (ended with status|printed more than|wrote more than)"):
                self.run_it(f"{self.folder}/paths")
        self.routes("phs\tduke!%s\n")
        self.put("bin/postconf", "#!/bin/sh\necho x; exit 1\n", 0o755)
        with self.assertRaisesRegex(Failure, "^postconf -hx mydestination ended with status 1, so nobody knows"):
            self.run_it(f"{self.folder}/paths")
        for its in "x, hash:/etc/postfix/local", "/etc/postfix/hosts x":
            self.put("bin/postconf", f"#!/bin/sh\necho '{its}'\n", 0o755)
            with self.assertRaisesRegex(Failure, "^Postfix has names of this machine in (hash:/etc/postfix/local|/etc/postfix/hosts), where they aren't looked for"):
                self.run_it(f"{self.folder}/paths")
        self.assertEqual((b"old", []), (self.bytes_of("paths"), [it for it in os.listdir(self.folder) if it.endswith(".new")]))

    def test_the_spool_s_user_prints_the_routes(self) -> None:
        self.give(f"{self.folder}/s")
        self.run_it(f"{self.folder}/paths")
        self.assertEqual(pwd.getpwuid(1).pw_name, self.bytes_of("s/who").decode().strip())

    def test_words(self) -> None:
        for words in ["a", "b"], ["-x"]:
            with self.assertRaisesRegex(Failure, "usage: "):
                self.run_it(*words)
