"""What the commands do with words, and small decisions of theirs."""
import errno
import os
import pwd
import signal
import time
from unittest import mock
from unittest.mock import patch

from uuspool_calls import bundle, call, carriers, check, cli, deliver, expire, files, hold, move, night, setup, sysfile, taylor
from uuspool_calls.carriers import folder, ssh, uucico
from uuspool_calls.errors import Failure, SpoolError, Stopped
from uuspool_calls.jobs import Job
from uuspool_calls.pieces import COMMAND
from uuspool_calls.processes import Child, Children, Ended, Processes
from uuspool_calls.session import user_name
from uuspool_calls.site import Site, enter

from .standins import LINE, Folder, Quiet, StandIn, parcel, site

FILE = f"{'0' * 64}.3000.1000.m"


class Words(Folder):
    def expect_usage(self, read, *lines: list[str]) -> None:  # type: ignore[no-untyped-def]
        for words in lines:
            with self.assertRaises(Failure) as raised:
                read(words)
            self.assertEqual(64, raised.exception.status, words)

    def test_calls(self) -> None:
        self.assertEqual(call.Order("duke", True, True, "C"), call.Order.read(["-np", "-g", "C", "duke"]))
        self.assertEqual(["--no-jobs", "-gC"], call.Order.read(["-pgC", "duke"]).options())
        self.assertEqual([True, False], [call.Order.read(it).dry for it in (["-p", "--dry-run", "duke"], ["--", "duke"])])
        self.expect_usage(call.Order.read, [], ["-x", "duke"], ["duke", "unc"], ["../x"], ["-g"], ["--", "-n"], ["--dry", "duke"], ["--dry-run"])

    def test_nights(self) -> None:
        self.assertEqual((60, True), night._read(["-w", "-p", "60"]))
        self.assertEqual((None, False), night._read([]))
        self.assertEqual((0, False), night._read(["-p0"]))
        self.expect_usage(night._read, ["-p", "x"], ["duke"], ["-p"], ["-p", "-1"])

    def test_expiries(self) -> None:
        self.assertEqual((30, 7), expire._read(["-w", "7", "30"]))
        self.assertEqual((30, None), expire._read(["30"]))
        self.expect_usage(expire._read, [], ["x"], ["-w", "7"], ["-w", "x", "30"], ["1", "2"])

    def test_keys(self) -> None:
        setup._expect_key(["ssh-ed25519", "AAAA+/="])
        setup._expect_key(["sk-ssh-ed25519@openssh.com", "AAAA"])
        self.expect_usage(setup._expect_key, [], ["ssh-ed25519"], ["ssh-ed25519", 'AAAA" x'], ["rsa", "AAAA"], ["ssh-x y", "A"], ["ssh-x", "A\n"])

    def test_a_key_of_standard_input_is_one_line(self) -> None:
        """A neighbour wrote it, so root's shell doesn't read it."""
        for text, words in (b"ssh-ed25519 AAAA duke\n", ["ssh-ed25519", "AAAA", "duke"]), (b"ssh-ed25519 $(id)", ["ssh-ed25519", "$(id)"]), (b"", []), (b"a b\nc d\n", []), (b"\xff", ["\ufffd"]):
            session = Quiet(self.folder)
            with files.memory_file(text) as handle, mock.patch.object(session.processes, "read_input", side_effect=lambda stream, *words: os.read(handle, 99)):
                self.assertEqual(words, setup._key_in(session), text)
        with mock.patch.object(setup, "_key_in", return_value=["x"]), self.assertRaisesRegex(Failure, "a public key begins with its kind"):
            setup.run(Quiet(self.folder), ["duke", "key", "-"])

    def test_numbers_of_the_environment(self) -> None:
        self.assertEqual([3600, 20], [Quiet(self.folder, **it).call_limit for it in ({}, {"UUSPOOL_CALL_LIMIT": "20"})])
        with self.assertRaisesRegex(Failure, "UUSPOOL_AT_ONCE is 1m, and has to be a number"):
            Quiet(self.folder, UUSPOOL_AT_ONCE="1m").at_once


class Carriers(Folder):
    def setUp(self) -> None:
        super().setUp()
        self.session = Quiet(self.folder)
        self.folder_carrier = self.put("lib/uuspool/carriers/folder", "#!/bin/sh\n", 0o755)
        self.entry = f"{self.folder}/etc/calls/duke"

    def expect_none(self, why: str) -> None:
        with self.assertRaisesRegex(carriers.NoCarrier, why):
            carriers.find(self.session, "duke")

    def test_found(self) -> None:
        self.put("etc/calls/duke", "# how\n\nfolder\t/media  x\n")
        found = carriers.find(self.session, "duke")
        self.assertEqual((self.folder_carrier, ("duke", "/media", "x")), (found.program, found.words))
        self.put("etc/calls/duke", "#!/bin/sh\n", 0o755)
        self.assertEqual((self.entry, ("duke",)), (carriers.find(self.session, "duke").program, carriers.find(self.session, "duke").words))

    def test_not_found(self) -> None:
        self.expect_none("no readable file .* says how to call duke")
        self.put("etc/calls/duke", "# nothing\n \n")
        self.expect_none("is empty, so nothing says how to call duke")
        self.put("etc/calls/duke", "shh b\n")
        self.expect_none("names the carrier shh, and there is no program")
        self.put("etc/calls/duke", "/tmp\n")
        self.expect_none("there is no program /tmp")
        os.remove(self.entry)
        os.symlink("/nowhere", self.entry)
        self.expect_none("is a link to /nowhere, which isn't there")

    def test_an_entry_in_toml(self) -> None:
        self.put("etc/calls/duke", '# how\ncarrier = "folder"\nwords = ["/media/a b"]\nlimit = 7200\nmost = 200_000\nport = "radio"\npoll = 0\nmounted = true\nuntil = "window"\n')
        found = carriers.find(self.session, "duke")
        self.assertEqual((self.folder_carrier, ("duke", "/media/a b"), 7200, 200_000, "radio", 0, True, "window", 0), found[1:])
        self.assertEqual((True, "/media/a b"), (carriers.any_polls(self.session), found.not_mounted()))
        self.assertEqual("", found._replace(words=("duke", "/proc/self")).not_mounted())
        self.put("etc/calls/duke", f'carrier = "{self.folder_carrier}"\n')
        found = carriers.find(self.session, "duke")
        self.assertEqual((self.folder_carrier, ("duke",), 0, 0, "", None, False, "", 0), found[1:])
        self.assertEqual((False, ""), (carriers.any_polls(self.session), found.not_mounted()))

    def test_a_wrong_entry_in_toml(self) -> None:
        for line, why in (
            ("limit = ", "is no TOML: Invalid value .at line 2"), ("limt = 3", "there is no key limt: the keys are carrier, words, limit"),
            ("limit = 0", "limit has to be seconds"), ("limit = true", "limit has to be seconds"), ('poll = "1"', "poll has to be minutes"),
            ('words = "/x"', "words has to be a list of texts"), ('port = "../x"', "port has to be a name"), ("mounted = 1", "mounted has to be true or false"),
            ('until = "noon"', 'until has to be "window"'), ("piece = 999", "piece has to be bytes, from 1000 to 1048576"), ("piece = true", "piece has to be bytes"),
            ("most = 999", "most has to be bytes, from 1000 to 4194304"), ("most = 4_194_305", "most has to be bytes"),
        ):  # fmt: skip
            self.put("etc/calls/duke", f'carrier = "folder"\n{line}\n')
            self.expect_none(why)
        self.put("etc/calls/duke", 'words = ["/media"]\n')
        self.expect_none("names no carrier, so nothing says how to call")

    def test_an_entry_of_who_calls_here(self) -> None:
        for text, values in (
            ("# how\n\npiece = 100_000", {"piece": 100_000}), ("ssh u@h", {}), ("piece = 1", {}), ("", {}), ('carrier = "folder"\npiece = 2000\n', {"carrier": "folder", "piece": 2000}),
        ):  # fmt: skip
            self.put("etc/calls/duke", text)
            self.assertEqual(values, carriers.values_of(self.session, "duke"))
        self.assertEqual(2000, carriers.find(self.session, "duke").piece)
        for text, most in ("most = 50_000\n", 50_000), ("most = 5\n", 0), ("folder /x\n", 0):
            self.put("etc/calls/duke", text)
            self.assertEqual(most, carriers.most_for(self.session, "duke"))
        self.put("etc/calls/duke", "piece = 2000\n", 0o755)
        self.assertEqual({}, carriers.values_of(self.session, "duke"))
        self.put("etc/calls/duke", "piece = 2000\n")
        self.expect_none("names no carrier, so nothing says how to call")

    def test_ssh(self) -> None:
        etc = f"{self.folder}/etc"
        line = ssh.line(etc, "mysite", ["duke", "u@h", "-p", "22"])
        self.assertEqual(["-p", "22", "--", "u@h", "uuspool-answer mysite"], line[-5:])
        self.put("etc/known_hosts")
        self.put("etc/keys/duke")
        line = ssh.line(etc, "mysite", ["duke", "-oProxyCommand=id"])
        self.assertEqual(["-i", f"{etc}/keys/duke", "-o", "IdentitiesOnly=yes", "-o", f"UserKnownHostsFile={etc}/known_hosts"], line[10:16])
        self.assertEqual(["--", "-oProxyCommand=id", "uuspool-answer mysite"], line[-3:])

    def test_ports(self) -> None:
        for words, port in (["h"], "22"), (["h", "-p", "2222"], "2222"), (["h", "-p2222"], "2222"), (["h", "-o", "x"], "22"):
            self.assertEqual(port, setup.port_of(words))

    def call_by(self, before: str, *words: str) -> str:
        """The entry of duke after `uuspool-setup duke folder` with these words."""
        self.put("etc/calls/duke", before)
        setup.Setup(self.session, "duke").call_by("folder", words)
        return self.bytes_of("etc/calls/duke").decode()

    def test_limits_of_an_entry_stay(self) -> None:
        self.put_program()
        self.session.program = f"{self.folder}/bin/uuspool"
        for path in "s/a b.db", "uuspool.toml":
            self.put(path, "x")
        self.assertEqual("folder /x\n", self.call_by("", "/x"))
        self.assertEqual("folder /x\n", self.call_by("ssh other\n", "/x"))
        self.assertEqual('carrier = "folder"\nwords = ["/a b", ""]\n', self.call_by("ssh other\n", "/a b", ""))
        self.assertEqual({"carrier": "folder", "words": ["/a b", ""]}, carriers.values_of(self.session, "duke"))
        same = '# mine\ncarrier = "folder"\nwords = ["/x"]\nport = "a"\n'
        self.assertEqual(same, self.call_by(same, "/x"))
        self.assertEqual('carrier = "folder"\nwords = ["/\u00fc", "a\\"\\\\"]\nport = "a"\n', self.call_by(same, "/\u00fc", 'a"\\'))
        self.call_by("piece = 5_000\nmounted = true\n", "/x")
        self.assertEqual({"carrier": "folder", "words": ["/x"], "piece": 5000, "mounted": True}, carriers.values_of(self.session, "duke"))

    def test_the_key_with_which_this_site_calls(self) -> None:
        self.put_program()
        self.session.program = f"{self.folder}/bin/uuspool"
        for path in "s/a b.db", "uuspool.toml":
            self.put(path, "x")
        its, path = setup.Setup(self.session, "duke"), self.put("etc/keys/duke.pub", "ssh-ed25519 AAAA mysite\n")
        self.assertEqual(["ssh-ed25519", "AAAA"], its._public_key())
        secret, kept = self.put("secret", "ssh-ed25519 SECRET root\n"), "etc/keys/duke.pub"
        self.addCleanup(signal.signal, signal.SIGALRM, signal.signal(signal.SIGALRM, signal.default_int_handler))
        self.addCleanup(signal.alarm, 0)
        signal.alarm(20)
        for change in (
            lambda: os.symlink(secret, path), lambda: os.mkfifo(path), lambda: os.mkdir(path), lambda: self.put(kept, "secret"), lambda: self.put(kept, ""),
            lambda: self.put(kept, "ssh-ed25519 AAAA mysite" + " " * (1 << 14)), lambda: self.give(self.put(kept, "ssh-ed25519 AAAA mysite\n")),
        ):  # fmt: skip
            os.rmdir(path) if os.path.isdir(path) else files.remove(path)
            change()
            why = f"^{path} is no public key in a file of .*: as root move it and {path[:-4]} away, and run this line again, which makes a new key$"
            with self.assertRaisesRegex(Failure, why):
                its._public_key()

    def test_the_keys_of_those_who_call_here(self) -> None:
        self.put_program()
        self.session.program = f"{self.folder}/bin/uuspool"
        for path in "s/a b.db", "uuspool.toml":
            self.put(path, "x")
        home = self.session.environment["UUSPOOL_HOME"] = f"{self.folder}/home"
        its, keys = setup.Setup(self.session, "duke"), f"{home}/.ssh/authorized_keys"
        if os.geteuid():
            self.skipTest("only root makes accounts")
        with mock.patch.object(setup, "ETC", f"{self.folder}/etc"), mock.patch.object(pwd, "getpwnam", return_value=pwd.getpwuid(0)):
            its.add_key("ssh-ed25519", "AAAA")
            before = files.read_bytes(keys)
            self.assertRegex(before or b"", b'^command="[^"]*/uuspool-answer duke",restrict ssh-ed25519 AAAA duke\n$')
            for path in home, f"{home}/.ssh":
                for change, undo in (lambda: self.give(path), lambda: os.chown(path, 0, 0)), (lambda: os.chmod(path, 0o775), lambda: os.chmod(path, 0o755)):
                    change()
                    with self.assertRaisesRegex(Failure, f"^{path} is not root's alone to write"):
                        its.add_key("ssh-ed25519", "BBBB")
                    self.assertEqual(before, files.read_bytes(keys))
                    undo()

    def test_a_second_site_gets_no_folder_of_keys_of_the_first(self) -> None:
        self.put_program()
        self.session.program = f"{self.folder}/bin/uuspool"
        self.put("s/a b.db", "x")
        self.put("bin/ssh-keygen", "#!/bin/sh\n", 0o755)
        self.session.environment["PATH"] = f"{self.folder}/bin:{os.environ['PATH']}"
        its = setup.Setup(self.session, "duke")
        its._make_key()
        self.give(f"{self.folder}/etc/keys")
        with self.assertRaisesRegex(Failure, f"^{self.folder}/etc/keys belongs to {pwd.getpwuid(1).pw_name}, perhaps for another site: let UUSPOOL_ETC name "):
            its._make_key()
        self.assertEqual(1, os.stat(f"{self.folder}/etc/keys").st_uid)

    def test_no_key_of_a_second_site_lets_its_neighbour_into_the_first(self) -> None:
        if os.geteuid():
            self.skipTest("only root adds a key")
        self.put_program()
        self.session.program = f"{self.folder}/bin/uuspool"
        self.put("s/a b.db", "x")
        home = self.session.environment["UUSPOOL_HOME"] = f"{self.folder}/home"
        keys, answer = f"{home}/.ssh/authorized_keys", f"{self.session.commands}/uuspool-answer"
        theirs = f'command="env UUSPOOL_DIR=/srv/b {answer} duke",restrict ssh-ed25519 BBBB duke\n'
        its, end = setup.Setup(self.session, "duke"), f'{answer} duke",restrict ssh-ed25519 AAAA duke$'
        mine = f'command="{answer} duke",restrict ssh-ed25519 %s duke\n'
        with mock.patch.object(setup, "ETC", f"{self.folder}/etc"), mock.patch.object(pwd, "getpwnam", return_value=pwd.getpwuid(0)) as getpwnam:
            self.put("home/.ssh/authorized_keys", mine % "OLD" + theirs)
            os.chmod(home, 0o755)
            its.add_key("ssh-ed25519", "AAAA")
            with self.assertRaisesRegex(Failure, f"^{keys} gives this key to a neighbour of another site: let duke have another key$"):
                its.add_key("ssh-ed25519", "BBBB")
            getpwnam.side_effect = lambda name: pwd.getpwuid(1 if name == "uuspool" else 0)
            with self.assertRaisesRegex(Failure, "^the account uuspool has another number than root, .*: usermod -o -u 0 -g 0 uuspool$"):
                its.add_key("ssh-ed25519", "CCCC")
            by_hand = "^the account uuspool is for the site of [^ ]*: make another one with the number of root, and add this line to its authorized_keys: "
            site_of_variable = self.bytes_of("bin/uuspool").decode().replace("cat", '[ "$UUSPOOL_DIR" ] || exit 5\ncat', 1)
            self.put("bin/uuspool", site_of_variable, 0o755)
            self.session.environment["UUSPOOL_DIR"] = self.folder
            with self.assertRaisesRegex(Failure, f'{by_hand}command="env UUSPOOL_DIR={self.folder} {end}'):
                its.add_key("ssh-ed25519", "AAAA")
        self.put_program()
        with mock.patch.object(setup, "ETC", f"{self.folder}/first"), self.assertRaisesRegex(Failure, f'{by_hand}command="env UUSPOOL_ETC={self.folder}/etc {end}'):
            its.add_key("ssh-ed25519", "AAAA")
        self.assertEqual(theirs + mine % "AAAA", (files.read_bytes(keys) or b"").decode())

    def test_no_two_neighbours_have_a_bundle_of_one_name_in_a_folder(self) -> None:
        for there in ["duke", "duke.2", "duke.bundle", "duke.bundle.2"], ["duke"]:
            names = list[str]()
            for system in there:
                shared = folder.Folder(Quiet(self.folder), os.open(self.folder, os.O_RDONLY), self.folder, system, [])
                exchange = folder.Exchange(Quiet(self.folder, UUSPOOL_HERE="mysite"), system, shared)
                names += [name(number) for name in (exchange._ours, exchange._theirs) for number in (1, 2, 3)]
            self.assertEqual(6 * len(there), len(set(names)), names)
        self.assertEqual(["mysite-duke.bundle", "mysite-duke.bundle.2"], names[:2])

    def test_bundles_in_a_folder(self) -> None:
        session = Quiet(self.folder)
        shared = folder.Folder(session, os.open(self.folder, os.O_RDONLY), self.folder, "duke", [])
        self.put("secret", "kept")
        os.symlink("secret", f"{self.folder}/a-b.bundle")
        self.put(".a-b.bundle.abcdefgh", "of a killed call")
        self.assertEqual((False, None), (shared.is_left("a-b.bundle"), shared.opened("a-b.bundle")))
        shared.put("a-b.bundle", b"text")
        self.assertEqual((b"kept", b"text"), (self.bytes_of("secret"), shared.opened("a-b.bundle")))
        self.assertEqual([], [it for it in os.listdir(self.folder) if it.startswith(".")])
        for most, words in ("", ["pack"]), ("0", ["pack"]), ("9000", ["pack", "--most=9000"]):
            self.put("bin/uuspool", "#!/bin/sh\necho \"$@\"\n", 0o755)
            packed = folder.Exchange(Quiet(self.folder, UUSPOOL_MOST=most), "duke", shared)._pack("--after", "3")
            self.assertEqual(" ".join([*words, "--after", "3", "--", "duke"]), packed.decode().strip())
        sealed = folder.Folder(session, os.open(self.folder, os.O_RDONLY), self.folder, "duke", [self.put("sealer", "#!/bin/sh\ncat\n[ $1 != open ]\n", 0o755)])
        sealed.put("a-b.bundle", b"sealed")
        self.assertEqual((b"sealed", None), (self.bytes_of("a-b.bundle"), sealed.opened("a-b.bundle")))

    def test_a_sealed_bundle_in_a_folder_that_is_too_large_when_it_is_opened(self) -> None:
        sealer = self.put("sealer", f"#!/bin/sh\n. {self.folder}/does\n", 0o755)
        session, most = Quiet(self.folder, UUSPOOL_CALL_LIMIT="60"), bundle.MOST
        shared = folder.Folder(session, os.open(self.folder, os.O_RDONLY), self.folder, "duke", [sealer])
        self.put("a-b.bundle", "small")
        for size, length in (most, most), (most + 1, 0), (40_000_000, 0):
            self.put("does", f"head -c {size} /dev/zero")
            self.assertEqual(length, len(shared.opened("a-b.bundle") or b""), size)
        self.assertEqual([f"{self.folder}/a-b.bundle: {sealer} printed more than {most} bytes, so this site cannot open it"] * 2, session.said)
        self.put("does", f"head -c {(1 << 24) + 1} /dev/zero")
        with self.assertRaisesRegex(Failure, f"^a-b.bundle cannot be written in .*: {sealer} printed more than 16777216 bytes$"):
            shared.put("a-b.bundle", b"text")
        self.assertEqual(b"small", self.bytes_of("a-b.bundle"))
        session.environment["UUSPOOL_CALL_LIMIT"] = "1"
        self.put("does", "exec sleep 30")
        began = time.monotonic()
        self.assertEqual((None, True), (shared.opened("a-b.bundle"), time.monotonic() - began < 20))


class Queue(taylor.Taylor):
    """Taylor UUCP's spool as a list of bundles, each with its name."""

    def __init__(self, session: Quiet, spool: list[bytes]) -> None:
        super().__init__(session, "duke")
        self.spool_of_bundles = spool

    def run(self, name: str, *words: str, given: bytes | int = b"") -> Ended:
        if name == "uux":
            self.spool_of_bundles.append(given if isinstance(given, bytes) else b"")
        elif words[0] == "-k":
            del self.spool_of_bundles[int(words[1])]
        lines = [b"%d duke uucp 11-28 10:00 Executing uuspool-answer\n" % at for at in range(len(self.spool_of_bundles))]
        return Ended(0, b"".join(lines), b"")


class Bundles(uucico.Bundles):
    """Our bundles in such a spool."""

    def __init__(self, session: Quiet, spool: list[bytes]) -> None:
        super().__init__(session, "duke", "")
        self._taylor = Queue(session, spool)

    def _without_jobs(self) -> bytes:
        return b"no jobs"


class TaylorsSpool(Folder):
    """What is in Taylor's spool after calls that break or not."""

    def setUp(self) -> None:
        super().setUp()
        self.spool: list[bytes] = []
        before = os.getcwd()
        os.chdir(self.folder)
        self.addCleanup(os.chdir, before)

    def bundle(self, *grades: str) -> bytes:
        jobs = [b"job %d 5 %s ann 1 send a b\nx\n" % (at, grade.encode()) for at, grade in enumerate(grades)]
        return b"bundle mysite duke - 1 z 5\n" + b"".join(jobs) + b"end\n"

    def put_bundle(self, text: bytes, occasion: uucico.Occasion = uucico.Occasion.CALL) -> list[bytes]:
        Bundles(Quiet(self.folder), self.spool).put(text, occasion)
        return self.spool

    def leaves(self, broke: bool) -> None:
        self.spool.clear()
        Bundles(Quiet(self.folder), self.spool)._note_left(broke)

    def test_a_users_file_of_that_name_is_no_bundle(self) -> None:
        bundles = Bundles(Quiet(self.folder), self.spool)
        waiting = [taylor.Waiting("1", "duke", "eve", "Sending /home/eve/uuspool-answer (3 bytes) to ~/x"), taylor.Waiting("2", "duke", "uucp", "Executing uuspool-answer (sending 3 bytes)")]
        with mock.patch.object(bundles._taylor, "waiting", return_value=waiting):
            self.assertEqual(["2"], bundles._queued())

    def test_a_bundle_that_a_call_left_there_stays(self) -> None:
        first, more, higher = self.bundle("N"), self.bundle("N", "Z"), self.bundle("C", "N")
        self.assertEqual([[first], [first]], [[*self.put_bundle(it)] for it in (first, more)])
        self.assertEqual([first], self.put_bundle(more, uucico.Occasion.CALLED))
        self.assertEqual([first], self.put_bundle(more, uucico.Occasion.ANSWER))
        self.assertEqual([higher], self.put_bundle(higher))
        self.leaves(broke=False)
        self.assertEqual([more], self.put_bundle(more))

    def test_an_answer_that_no_call_had_is_replaced(self) -> None:
        answer, later = self.bundle("N"), self.bundle("N", "Z")
        for occasion in uucico.Occasion.CALL, uucico.Occasion.CALLED:
            self.spool.clear()
            self.assertEqual([answer], [*self.put_bundle(answer, uucico.Occasion.ANSWER)])
            self.assertEqual([later], self.put_bundle(later, occasion))

    def test_an_answer_that_waits_when_the_next_bundle_came_had_a_call(self) -> None:
        answer, later = self.bundle("N"), self.bundle("N", "Z")
        self.put_bundle(answer, uucico.Occasion.ANSWER)
        self.assertEqual([[answer], [answer]], [[*self.put_bundle(later, it)] for it in (uucico.Occasion.ANSWER, uucico.Occasion.CALL)])

    def test_jobs_that_left_go_again_after_a_whole_call_without_an_answer(self) -> None:
        text, gone = self.bundle("N"), []
        for broke in False, True, True, False, False:
            gone += [*self.put_bundle(text)]
            self.leaves(broke)
        self.assertEqual([text, b"no jobs", b"no jobs", b"no jobs", text], gone)


class Small(Folder):
    def test_one_word(self) -> None:
        self.assertEqual("no-bundle-came,-but:-x-y", call._one_word("no bundle came, but: x\ty"))
        self.assertEqual("x" * 255, call._one_word("x" * 255))
        long = call._one_word("uuspool-answer at duke: " * 20 + "no such file")
        self.assertEqual((255, "..", "no-such-file"), (len(long), long[:2], long[-12:]))

    def test_addresses(self) -> None:
        for what, words in ("exec rmail joe c!eve", ("rmail", "d!joe", "d!c!eve")), ("exec lp joe", ("lp", "joe")), ("send a b", ("a", "b")):
            self.assertEqual(words, move.addressed_on(Job.read(f"1 d ann N 2026-11-28 10:00:00 5 {what}"), "d"))

    def test_lines_without_retries(self) -> None:
        text = b"system duke\nMax-Retries 0\nmax-retries 00 # none\nmax-retries 10\n# max-retries 0\nmax-retries\t0"
        self.assertEqual([2, 3, 6], sysfile.without_retries(text))

    def test_what_moves(self) -> None:
        def piece(mark: str, at: int) -> str:
            return LINE.replace(" 5 ", " 1000 ").replace("rmail joe", f"{COMMAND} {FILE.removesuffix('.m')}.{mark} {at} send a b")

        lines = LINE, piece("m", 0), piece("m", 1000), piece("m", 2000), LINE, piece("n", 0), piece("n", 2000)
        spool = StandIn([parcel(f"{number}{line[1:]}", bytes(int(line.split()[6]))) for number, line in enumerate(lines, 1)])
        for numbers, moved, stays in (set(), [1, 2, 5], ["b, 1000 bytes have gone"]), ({3}, [2], []), ({1, 9}, [1], []), ({7}, [], ["b, 1000 bytes have gone"]):
            wholes, parts = move._chosen(site(self.folder, spool), "duke", numbers)
            self.assertEqual((moved, stays), ([it.job.number for it in wholes], [it.what.removeprefix("send a ") for it in parts]))
            self.assertEqual([[2, 3, 4]] * (2 in moved), [[job.number for job in it.parts] for it in wholes if it.sum])
        with self.assertRaisesRegex(Failure, "job 1 waits for duke, not for unc"):
            move._chosen(site(self.folder, spool), "unc", {1, 99})

    def test_what_is_no_move(self) -> None:
        here = site(self.folder, StandIn())
        for names, said in (("duke", "duke"), "need no move"), (("mysite", "duke"), "is this site, and one of its jobs may be delivered now"):
            with self.assertRaisesRegex(Failure, said):
                move._expect_neighbour(here, *names)


    def test_a_system_that_is_dropped_needs_another_key(self) -> None:
        here = site(self.folder, StandIn())
        here.settings = here.settings._replace(seals=f"{self.folder}/seals")
        self.put("seals/a", "0f" * 32 + "\n")
        self.put("seals/b", "unsealed\n")
        said = ["a has a key for seals: give it another one before it is defined again, because its old bundles are no longer known"]
        for only_shows in True, False:
            here.session.said.clear()  # type: ignore[attr-defined]
            self.assertEqual(([True] * 3, said), ([sysfile._drop(here, name, only_shows) for name in "abc"], here.session.said))  # type: ignore[attr-defined]

    def test_definitions(self) -> None:
        text = "system a\ntime Any\nsystem b.c\ntime Never\n"
        self.assertEqual({"a": "system a\ntime Any\n", "b.c": "system b.c\ntime Never\n"}, sysfile.definitions(text))
        self.assertEqual({}, sysfile.definitions(""))

    def test_held(self) -> None:
        here = site(self.folder, StandIn())
        hold._hold(here, "duke", ends=False)
        self.assertEqual((["duke.json"], ["duke"]), (os.listdir(f"{self.folder}/calls"), here.contacts.held()))
        for name in ";id", "\x1b[2J", "-x":  # (root types the name that a check prints)
            self.put(f"calls/{name}.json", '{"held": true}')
        self.assertEqual(["duke"], here.contacts.held())
        hold._hold(here, "duke", ends=True)
        self.assertEqual(([], ["duke   held by uuspool-hold", "duke   released by uuspool-hold"]), (here.contacts.held(), here.log))

    def test_a_check_names_ten_keys(self) -> None:
        session = Quiet(self.folder)
        self.put_program()
        self.put("uuspool.toml", 'name = "a"\n' + "".join(f"k{at} = 1\n" for at in range(13)))
        self.assertEqual(1, check.run(session, []))
        self.assertEqual([f"{self.folder}/uuspool.toml: line {at + 2}: the key k{at} means nothing here, and is passed over." for at in range(10)], session.printed[:10])
        self.assertEqual(f"{self.folder}/uuspool.toml: line 12: from here on more keys mean nothing here, and are passed over.", session.printed[10])
        self.assertEqual(12, len(session.printed))

    def test_what_a_check_finds_without_a_spool(self) -> None:
        session = Quiet(self.folder)
        self.put("bin/uuspool", "#!/bin/sh\necho 'uuspool: cannot read /x' >&2\nexit 5\n", 0o755)
        self.assertEqual(1, check.run(session, []))
        self.put_program()
        self.put("uuspool.toml", 'name = "a"\nspol = "x"\n')
        self.assertEqual(1, check.run(session, []))
        self.assertEqual(
            [
                "uuspool: cannot read /x: install the package, set UUSPOOL_DIR, or correct the settings.",
                f"{self.folder}/uuspool.toml: line 2: the key spol means nothing here, and is passed over.",
                f"{self.folder}/s, the folder of the spool, is not there: mkdir -m 700 {self.folder}/s && chown -h uucp:uucp {self.folder}/s",
            ],
            session.printed,
        )


    def test_what_is_no_file_is_not_read(self) -> None:
        os.mkfifo(f"{self.folder}/pipe")
        for path in f"{self.folder}/pipe", self.folder, "/dev/zero", f"{self.folder}/nothing":
            self.assertIsNone(files.read_bytes(path))
        self.assertEqual(b"x", files.read_bytes(self.put("x", "x")))
        self.assertEqual(b"xy", files.read_bytes(self.put("x", "xyz"), 2))
        for text in "[" * 200_000, "[]", "{", '{"a": ' * 200_000:
            self.assertEqual({}, files.read_record(self.put("x", text)))
        large = self.put("x", '{"a": "%s"}' % ("x" * (1 << 20)))
        self.assertEqual((0, 1), (len(files.read_record(large)), len(files.read_record(large, 1 << 21))))

    def test_what_a_check_prints_is_no_order_for_a_terminal(self) -> None:
        session = Quiet(self.folder)
        check.Check(session).tell("a\x1b[2Jb\nc is held")
        self.assertEqual(["a?[2Jb?c is held"], session.printed)

    def test_what_a_check_finds_of_settings_that_came(self) -> None:
        paths = [self.put(f"public/{it}") for it in ("uuspool.toml", "a/uuspool.toml", "a/b/c/uuspool.toml", "a/b/x")]
        os.symlink("a", f"{self.folder}/public/link")
        os.makedirs(f"{self.folder}/public/c")
        os.symlink("../a/uuspool.toml", f"{self.folder}/public/c/uuspool.toml")
        session = Quiet(self.folder)
        looks = check.Check(session)
        looks._owner = pwd.getpwuid(os.geteuid()).pw_name
        looks._check_settings_below(f"{self.folder}/public")
        self.assertEqual(paths[:3], [line.partition(":")[0] for line in session.printed])
        self.assertTrue(all(line.endswith(f" remove it as {looks._owner}.") for line in session.printed), session.printed)
        with mock.patch.object(check, "_MOST_FOLDERS", 4):  # (the fourth is a/b)
            looks._check_settings_below(f"{self.folder}/public")
        self.assertEqual(paths[:2] + [f"{self.folder}/public has 4 folders or more, so not all of them were looked at. What is called uuspool.toml may be in others."], [line.partition(": ")[0] for line in session.printed[3:]])

    def test_a_shell_runs_no_name_of_a_folder_in_which_root_removes_settings(self) -> None:
        for name, mode in ("$(id)", 0o755), ("a;id", 0o777):
            self.put(f"public/{name}/uuspool.toml")
            os.chmod(f"{self.folder}/public/{name}", mode)
        session = Quiet(self.folder)
        looks = check.Check(session)
        looks._owner = pwd.getpwuid(os.geteuid()).pw_name
        looks._check_settings_below(f"{self.folder}/public")
        self.assertEqual([f"'{self.folder}/public/$(id)/uuspool.toml'", f"'{self.folder}/public/a;id'"], [line.partition(":")[0] for line in session.printed])

    def test_root_removes_nothing_in_folders_of_others(self) -> None:
        """Who may write such a folder, or has it, may put a link to one of root's in its place."""
        for name, mode in ("", 0o777), ("written", 0o775), ("theirs", 0o755), ("own", 0o755), ("theirs/own", 0o755):
            self.put(f"public/{name}/uuspool.toml")
            os.chmod(f"{self.folder}/public/{name}", mode)
        self.give(f"{self.folder}/public/theirs")
        session = Quiet(self.folder)
        looks = check.Check(session)
        looks._owner = pwd.getpwuid(os.geteuid()).pw_name
        looks._check_settings_below(f"{self.folder}/public")
        removed = [line.partition(":")[0] for line in session.printed if "remove" in line]
        self.assertEqual([f"{self.folder}/public/uuspool.toml", f"{self.folder}/public/own/uuspool.toml"], removed)
        left = [line.partition(":")[0] for line in session.printed if "remove" not in line]
        self.assertEqual([f"{self.folder}/public/{name}" for name in ("theirs", "written", "theirs/own")], left)

    def test_what_is_in_the_place_of_a_neighbours_folder(self) -> None:
        session = Quiet(self.folder)
        looks = check.Check(session)
        looks._owner, looks._own, looks._systems = pwd.getpwuid(os.geteuid()).pw_name, "mysite", frozenset(("mysite", "duke", "unc", "phs", "eve"))
        self.put("public/unc")
        for name, mode in ("duke", 0o755), ("phs", 0o777):
            os.mkdir(f"{self.folder}/public/{name}")
            os.chmod(f"{self.folder}/public/{name}", mode)
        looks._check_neighbours_folders(f"{self.folder}/public")
        self.assertEqual(["phs", "unc"], sorted(os.path.basename(line.partition(",")[0]) for line in session.printed))
        session.printed.clear()
        self.put("public/duke/a/x")
        self.put("public/eve/x")
        self.put("etc/public", "eve /elsewhere\n")
        looks._check_neighbours_folders(f"{self.folder}/public")
        self.assertEqual(["duke"], [os.path.basename(line.partition(",")[0]) for line in session.printed if "has files that it did not bring" in line])

    def test_who_is_called_by_taylor(self) -> None:
        looks = check.Check(Quiet(self.folder))
        for name in "uucico", "folder", "taylor":
            self.put(f"lib/uuspool/carriers/{name}", "#!/bin/sh\n", 0o755)
        looks._owner = pwd.getpwuid(os.geteuid()).pw_name
        for line, found in (("", False), ("folder /x", False), ("uucico", True), ("taylor --no-call", True)):
            self.put("etc/calls/duke", f"{line}\n")
            self.assertEqual(found, looks._calls_by_taylor(), line)

    def test_a_check_asks_for_no_key_of_who_has_taylor_uucp_alone(self) -> None:
        session = Quiet(self.folder)
        looks = check.Check(session)
        looks._owner, looks._own, looks._systems = pwd.getpwuid(os.geteuid()).pw_name, "mysite", frozenset(("mysite", "duke", "unc"))
        looks._settings = looks._settings._replace(seals=f"{self.folder}/keys", path=self.put("uuspool.toml"))
        for name, carrier in ("duke", "taylor"), ("unc", "uucico"):
            self.put(f"lib/uuspool/carriers/{carrier}", "#!/bin/sh\n", 0o755)
            self.put(f"etc/calls/{name}", f"{carrier}\n")
        looks._check_seals()
        self.assertEqual(["uuspool-setup unc seal makes a key"], [line.split(": ")[-1].split(",")[0] for line in session.printed])
        session.printed.clear()
        for name in "duke", "unc":
            self.put(f"keys/{name}", "0a" * 32 + "\n", 0o600)
        looks._check_seals()
        self.assertEqual([f"{self.folder}/keys/duke has a key"], [line.split(",")[0] for line in session.printed])

    def test_what_a_check_finds_of_taylors_cleaner(self) -> None:
        os.makedirs(f"{self.folder}/public")
        os.chmod(f"{self.folder}/public", 0o1777)
        expire = self.put("expire", "# a file\n$expire_uucppublic\t\t= 14;\t# days\n")
        names = {"_CLEANER_OF_TAYLOR": self.put("uudemon.day"), "_EXPIRE_OF_TAYLOR": expire, "_CLEANED_BY_TAYLOR": f"{self.folder}/public"}
        with patch.multiple(check, **names):
            line = "$expire_uucppublic = {};\n"
            for mode, text, found in (0o1777, line.format(14), 1), (0o755, line.format(14), 0), (0o1777, line.format(0), 0), (0o1777, f"# {line.format(0)}", 1), (0o1777, "", 1):
                os.chmod(f"{self.folder}/public", mode)
                self.put("expire", text)
                session = Quiet(self.folder)
                looks = check.Check(session)
                looks._owner = pwd.getpwuid(os.geteuid()).pw_name
                looks._check_cleaner(f"{self.folder}/public")
                self.assertEqual(found, len(session.printed), (mode, text))


    def test_what_a_check_finds_of_the_rotation_of_taylors_logs(self) -> None:
        os.makedirs(f"{self.folder}/logs")
        debians = "/var/log/uucp/Log {\n\tdaily\n\tcompress\n\tdelaycompress\n}\n"
        cured = debians.replace("\tcompress", "\tnocompress").replace("\tdelaycompress", "\tsu uucp uucp")
        for lines, owner, found in (debians, "", 1), (cured, "", 0), ("\tmail root\n", "", 1), ("\tnomail\n", "", 0), (debians, "daemon", 0), ("", "", 0):
            with patch.multiple(check, _LOGS_OF_TAYLOR=f"{self.folder}/logs", _ROTATION_OF_TAYLOR=self.put("uucp", lines)):
                session = Quiet(self.folder)
                looks = check.Check(session)
                looks._owner = owner or pwd.getpwuid(os.geteuid()).pw_name
                looks._check_rotation()
                self.assertEqual(found, len(session.printed), (lines, owner))


class Ends(Folder):
    def test_statuses(self) -> None:
        for error, status, said in (
            (Failure(78, "no site"), 78, ["no site"]), (Failure(75, ""), 75, []), (Stopped(), 75, []), (KeyboardInterrupt(), 75, []),
            (FileNotFoundError(2, "No such file or directory", "/x"), 75, ["/x: No such file or directory"]), (BrokenPipeError(), 75, []),
        ):  # fmt: skip
            session = Quiet(self.folder)
            self.assertEqual((status, said), (cli.run(session, mock.Mock(side_effect=error), []), session.said))


class Rounds(Folder):
    def test_rounds_that_ended_are_forgotten(self) -> None:
        made: list[Children] = []
        known: list[int] = []

        class Kept(Children):
            def __init__(self, processes: Processes, at_once: int) -> None:
                super().__init__(processes, at_once)
                made.append(self)

        def begun(site: Site, words: list[str]) -> Child:
            known.append(len(made[0].ended))
            if len(known) == 4:
                raise Stopped
            return Child(lambda: 0)

        with mock.patch.multiple(night, Children=Kept, _begun=begun, _MINUTE=0.2), self.assertRaises(Stopped):
            night._go_on(site(self.folder, StandIn()), None)
        self.assertEqual([0] * 4, known)


    def slow(self, session: object = None, words: object = None) -> int:
        time.sleep(0.5)
        self.put("whole")
        return 0

    def test_a_round_that_cannot_begin_ends_no_other(self) -> None:
        """As at a limit of processes."""
        here, begun = site(self.folder, StandIn()), mock.Mock(side_effect=[Child(self.slow), BlockingIOError(errno.EAGAIN, ""), BlockingIOError(errno.EAGAIN, ""), Stopped])
        with mock.patch.multiple(night, _begun=begun, _MINUTE=0.3), self.assertRaises(Stopped):
            night._go_on(here, None)
        self.assertTrue(os.path.exists(f"{self.folder}/whole"))
        self.assertRegex(here.session.said[0], "^no process can begin now.*so there is no round in this minute$")

    def test_a_question_without_an_answer_ends_no_delivery(self) -> None:
        spool = StandIn()
        spool.fails["due"] = SpoolError(3, "uuspool: spool: store")
        with mock.patch.object(deliver, "run", self.slow), self.assertRaisesRegex(Failure, "what is due"):
            night.Night(site(self.folder, spool)).make(None)
        self.assertTrue(os.path.exists(f"{self.folder}/whole"))


class Entering(Folder):
    def expect(self, status: int, why: str) -> None:
        with self.assertRaisesRegex(Failure, why) as raised:
            enter(Quiet(self.folder))
        self.assertEqual(status, raised.exception.status)

    def test_what_is_missing(self) -> None:
        self.expect(78, "bin/uuspool: No such file or directory")
        self.put_program()
        self.expect(78, "the folder of the spool that .*/uuspool.toml names, is not there")
        os.mkdir(f"{self.folder}/s")
        entered = enter(Quiet(self.folder))
        self.assertIsInstance(entered, Site)
        self.assertEqual(["calls", "deliver", "moves", "refused"], sorted(os.listdir(f"{self.folder}/s")))
        self.assertEqual(self.folder, entered.environment["UUSPOOL_DIR"])

    def test_a_folder_of_somebody_else(self) -> None:
        self.put_program()
        self.put("uuspool.toml", "")
        os.mkdir(f"{self.folder}/s")
        if os.geteuid():
            self.skipTest("only root can give a folder away")
        os.chown(f"{self.folder}/s", 65534, -1)
        with mock.patch("os.geteuid", return_value=1):
            self.expect(75, "s belongs to nobody: type test .. as root, or as nobody")
        os.chown(f"{self.folder}/s", 3_000_000, -1)
        self.expect(78, "s belongs to user 3000000, who has no account")

    def test_what_root_runs_runs_again_as_the_owner(self) -> None:
        self.put_program()
        self.put("uuspool.toml", "")
        os.mkdir(f"{self.folder}/s")
        if os.geteuid():
            self.skipTest("only root can give a folder away")
        os.chown(f"{self.folder}/s", 65534, -1)
        session = Quiet(self.folder)
        with mock.patch("uuspool_calls.relay.run", return_value=3) as relayed, mock.patch("sys.argv", ["/bin/true", "-n", "duke"]):
            for words, keeps, wanted in (None, (), ["-n", "duke"]), (["x"], (0,), ["x"]):
                with self.assertRaises(SystemExit) as raised:
                    enter(session, words, keeps)
                self.assertEqual((3, mock.call(mock.ANY, keeps)), (raised.exception.code, relayed.call_args))
                program = relayed.call_args.args[0]
                self.assertEqual([os.path.realpath("/bin/true"), *wanted], program.words)
                self.assertEqual(self.folder, program.environment["UUSPOOL_DIR"])

    def test_another_users_program_fills_no_memory(self) -> None:
        session = Quiet(self.folder)
        lines = ["head", "-c", "17000000", "/dev/zero"]
        self.assertEqual(17_000_000, len(session.run_as(user_name(os.geteuid()), lines).output))
        if os.geteuid():
            self.skipTest("only root acts as another user")
        self.assertEqual(1 << 24, len(session.run_as("nobody", ["head", "-c", f"{1 << 24}", "/dev/zero"]).output))
        for joined in False, True:
            for words in lines, ["sh", "-c", "yes >&2"]:
                with self.assertRaisesRegex(Failure, f"^{words[0]}, run as nobody, wrote more than 16 MiB: .*: ps -u nobody$"):
                    session.run_as("nobody", words, joined=joined)

    def test_onward(self) -> None:
        self.put_program()
        os.mkdir(f"{self.folder}/s")
        self.put("etc/forward", "duke  unc\tphs\nduke other\n")
        entered = enter(Quiet(self.folder))
        self.assertEqual([["unc", "phs"], []], [entered.onward(it) for it in ("duke", "unc")])
