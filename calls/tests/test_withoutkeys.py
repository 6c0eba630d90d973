"""What a process leaves before it becomes sudo for a member."""
import contextlib
import errno
import os
import signal
from collections.abc import Sequence
from unittest import mock

from uuspool_calls import cli, kernel, withoutkeys
from uuspool_calls.errors import LATER, USAGE
from uuspool_calls.processes import Child

from .standins import Folder, Quiet
from .test_relay import ADD_KEY

# Whether a program finds a key of its session.
FINDS = 'import ctypes; print(ctypes.CDLL(None).syscall(*map(ctypes.c_long, ({keyctl}, 10, -3)), b"user", b"members", ctypes.c_long(0)) > 0)'
SHOWS = 'grep -E "Sig(Blk|Ign|Cgt)" /proc/self/status; ls /proc/$$/fd; umask; pwd; env | grep -v ^_=; exit 3'


class WithoutKeys(Folder):
    def setUp(self) -> None:
        super().setUp()
        self.session = Quiet(self.folder, WORD="a b")

    def found(self, words: Sequence[str], leaves: bool = True) -> tuple[int, list[str]]:
        """The status of these words, and what they print, in a process that has a key in its session, and ignores a signal. Python itself
        ignores SIGPIPE."""
        reads, writes = os.pipe()

        def begin() -> int:
            kernel.leave_keyring()
            with contextlib.suppress(OSError):
                kernel.called(ADD_KEY[os.uname().machine], b"user", b"members", b"secret", 6, -3)
            signal.signal(signal.SIGHUP, signal.SIG_IGN)
            os.dup2(writes, 1)
            if leaves:
                return cli.run(self.session, withoutkeys.run, words)
            signal.signal(signal.SIGPIPE, signal.SIG_DFL)
            os.execvpe(words[0], words, self.session.environment)

        child = Child(begin)
        os.close(writes)
        with open(reads, encoding="utf-8") as file:
            said = file.read().splitlines()
        return child.wait(), said

    def test_no_key_of_the_session_is_left(self) -> None:
        if os.uname().machine not in ADD_KEY:
            self.skipTest("nobody knows how a process leaves its keyring here")
        words = ["python3", "-ISc", FINDS.format(keyctl=kernel._KEYCTL[os.uname().machine])]
        if self.found(words, leaves=False) != (0, ["True"]):
            self.skipTest("no session has keys here")
        self.assertEqual((0, ["False"]), self.found(words))

    def test_all_else_stays(self) -> None:
        words = ["sh", "-c", SHOWS]
        before, after = self.found(words, leaves=False), self.found(words)
        self.assertEqual((before, 3, True), (after, after[0], "WORD=a b" in after[1]))

    def test_the_keys_are_left_first(self) -> None:
        both = mock.Mock()
        with mock.patch.object(kernel, "leave_keyring", both.leaves), mock.patch.object(os, "execvpe", both.becomes), mock.patch.object(signal, "signal"):
            withoutkeys.run(self.session, ["true", "x"])
        self.assertEqual([mock.call.leaves(), mock.call.becomes("true", ["true", "x"], self.session.environment)], both.mock_calls)

    def test_a_machine_without_keys(self) -> None:
        for number in errno.EPERM, errno.ENOSYS:
            with mock.patch.object(kernel, "called", side_effect=OSError(number, "no")):
                self.assertEqual(3, Child(lambda: cli.run(self.session, withoutkeys.run, ["sh", "-c", "exit 3"])).wait())

    def test_what_fails_waits(self) -> None:
        with mock.patch.object(kernel, "called", side_effect=OSError(errno.EDQUOT, "Disk quota exceeded")), mock.patch.object(os, "execvpe") as becomes:
            self.assertEqual(LATER, cli.run(self.session, withoutkeys.run, ["true"]))
        with mock.patch.object(kernel, "leave_keyring"), mock.patch.object(signal, "signal"):
            self.assertEqual(LATER, cli.run(self.session, withoutkeys.run, ["/nowhere/sudo"]))
        self.assertEqual(USAGE, cli.run(self.session, withoutkeys.run, []))
        self.assertEqual([], becomes.mock_calls)
        said = ["this process cannot leave the keys of its session: Disk quota exceeded", "/nowhere/sudo: No such file or directory"]
        self.assertEqual([*said, "a program is missing: without-keys PROGRAM [WORD].."], self.session.said)
