"""What root's process copies for one that runs as another user."""
import contextlib
import errno
import os
import pty
import pwd
import signal
import socket
import sys
import tempfile
import time
from collections.abc import Callable
from unittest import mock

from uuspool_calls import asowner, kernel, processes, relay
from uuspool_calls.errors import Failure, Stopped
from uuspool_calls.processes import Child, Program

from .standins import Folder, Quiet

# A terminal, a pipe or a file, of each stream, and what else is open.
SHOWS = 'import os, stat; print(*["terminal" if os.isatty(it) else "pipe" if stat.S_ISFIFO(os.fstat(it).st_mode) else os.path.realpath(f"/proc/self/fd/{it}") for it in (0, 1, 2)], sorted(os.listdir("/proc/self/fd"))[3:-1])'


def typed(
    *words: str, keeps: tuple[int, ...] = (), numbers: tuple[int, ...] = (), given: int = 0, output: int | None = None, most: int | None = None
) -> tuple[int, str]:
    """The status of these words that root types at a terminal, and what that shows. After each line root sends a signal. The status
    of an error is its number, and 98 that of a stop."""
    process, terminal = pty.fork()
    if process == 0:
        status = 99
        try:
            for number in signal.SIGHUP, signal.SIGINT, signal.SIGTERM:
                signal.signal(number, signal.SIG_DFL)  # (what runs the tests in the background may have them ignored)
            os.dup2(0, 7)
            os.dup2(given, 0)
            if output is not None:
                os.dup2(output, 1)
            status = relay.run(Program(words, "/", os.environ), keeps, most)
        except OSError as error:
            status = error.errno or status
        except Stopped:
            status = 98
        finally:
            os._exit(status)
    text, sent = b"", 0
    with contextlib.suppress(OSError):
        while block := os.read(terminal, 4096):
            text += block
            while sent < min(len(numbers), text.count(b"\n")):
                os.kill(process, numbers[sent])
                sent += 1
    status = os.waitstatus_to_exitcode(os.waitpid(process, 0)[1])
    os.close(terminal)
    return status, text.decode().replace("\r\n", "\n")


class Relay(Folder):
    def test_a_terminal_is_given_to_nobody(self) -> None:
        self.assertEqual((0, "/dev/null pipe pipe []\n"), typed(sys.executable, "-c", SHOWS))
        # (The neighbour's line is.)
        self.assertEqual((0, "terminal terminal terminal []\n"), typed(sys.executable, "-c", SHOWS, keeps=(0, 1, 2)))

    def test_a_socket_is_given_to_nobody(self) -> None:
        ours, theirs = socket.socketpair()
        with ours, theirs:
            script = f"{SHOWS}; os.write(1, b'\\x1b[2J')"
            self.assertEqual((0, ""), typed(sys.executable, "-uc", script, output=theirs.fileno()))
            self.assertEqual(b"/dev/null pipe pipe []\n\x1b[2J", ours.recv(1000))

    def test_a_file_is_given_to_nobody(self) -> None:
        with tempfile.NamedTemporaryFile() as file:
            os.write(file.fileno(), b"before\n")
            script = "readlink /proc/$$/fd/1 /proc/$$/fd/2 | cut -c -5; : >/proc/$$/fd/1; echo said >&2; exit 3"
            self.assertEqual((3, "said\n"), typed("sh", "-c", script, output=file.fileno()))
            self.assertEqual(b"before\npipe:\npipe:\n", os.pread(file.fileno(), 1000, 0))

    def test_a_pipe_is_given_to_nobody(self) -> None:
        reads, writes = os.pipe2(os.O_NONBLOCK)
        with open(reads, "rb") as file, processes.closing(writes):
            os.write(writes, bytes(65536))
            script = f"readlink /proc/$$/fd/1; [ $(readlink /proc/$$/fd/1) != 'pipe:[{os.fstat(writes).st_ino}]' ]"
            child = Child(lambda: typed("sh", "-c", script, output=writes)[0])
            time.sleep(0.2)
            self.assertEqual(bytes(65536), file.read(65536))  # (until then nothing more fits)
            self.assertEqual(0, child.wait())
            self.assertEqual(b"pipe:", file.read()[:5])

    def test_a_file_as_input_has_a_place_of_its_own(self) -> None:
        script = "import os; print(os.read(0, 4).decode(), end=''); os.lseek(0, 0, 2)"
        with open(self.put("input", "one\ntwo\nsix\n"), "rb", buffering=0) as file:
            file.read(4)
            os.remove(f"{self.folder}/input")
            self.assertEqual((0, "two\n"), typed(sys.executable, "-c", script, keeps=(0,), given=file.fileno()))
            self.assertEqual(b"two\n", file.read(4))

    def test_a_pipe_as_input_stays(self) -> None:
        reads, writes = os.pipe()
        with processes.closing(reads):
            with processes.closing(writes):
                os.write(writes, b"one\ntwo\n")
            self.assertEqual((0, "one\n"), typed(sys.executable, "-c", "print(__import__('os').read(0, 4).decode(), end='')", keeps=(0,), given=reads))
            self.assertEqual(b"two\n", os.read(reads, 4))

    def test_root_says_whether_there_is_input(self) -> None:
        """Otherwise a read fails."""
        owner, fails = pwd.getpwuid(os.geteuid()).pw_name, 100
        script = f"import os, sys\ntry: sys.exit(len(os.read(0, 9)))\nexcept OSError: sys.exit({fails})"
        path, (ours, theirs), (ours_too, terminal) = self.put("input", "12345"), socket.socketpair(), pty.openpty()
        ours.send(b"12345")
        with open(path, "rb") as file, ours, theirs, processes.closing(ours_too), processes.closing(terminal):
            for words, given, wanted in ([], file.fileno(), fails), (["-i"], file.fileno(), 5), (["-im", "5"], file.fileno(), 5), (["-i"], theirs.fileno(), fails), (["-i"], terminal, fails):

                def begin() -> int:
                    os.dup2(given, 0)
                    return asowner.run(Quiet(self.folder), [*words, owner, sys.executable, "-c", script])

                self.assertEqual(wanted, Child(begin).wait(), words)

    def test_output_that_nobody_takes(self) -> None:
        full = os.open("/dev/full", os.O_WRONLY)
        reads, writes = os.pipe()
        os.close(reads)
        with processes.closing(full), processes.closing(writes):
            for handle, number in (full, errno.ENOSPC), (writes, errno.EPIPE):
                self.assertEqual((number, ""), typed("echo", "x", output=handle))
                self.assertEqual((3, ""), typed("sh", "-c", "echo x; exit 3", output=handle))
                self.assertEqual((128 + signal.SIGPIPE, ""), typed("yes", output=handle))

    def test_what_prints_too_much_is_ended(self) -> None:
        self.assertEqual((relay.BEYOND, ""), typed("yes", most=1000))
        self.assertEqual((relay.BEYOND, ""), typed("sh", "-c", "trap '' PIPE; printf 123456; exit 0", most=5))
        self.assertEqual((3, "12345"), typed("sh", "-c", "printf 12345; exit 3", most=5))
        with self.assertRaisesRegex(Failure, "^-m x: no number of bytes: as-owner"):
            asowner.run(Quiet(self.folder), ["-m", "x", "nobody", "true"])

    def test_what_is_shown_is_no_order_for_the_terminal(self) -> None:
        self.assertEqual((0, "a?[2Jb?\tü?\n"), typed("printf", "a\\033[2Jb\\r\\tü\\302\\233\\n"))
        script = "import os, time; os.write(1, 'ü'.encode()[:1]); time.sleep(0.2); os.write(2, 'ü'.encode()[1:])"
        self.assertEqual((0, "ü"), typed(sys.executable, "-c", script))

    def test_output_and_errors_keep_their_order(self) -> None:
        script = "for it in 1 2 3; do echo out $it; echo err $it >&2; done"
        self.assertEqual((0, "".join(f"out {it}\nerr {it}\n" for it in (1, 2, 3))), typed("sh", "-c", script))

    def test_all_that_was_written_is_shown(self) -> None:
        status, text = typed("sh", "-c", "head -c 300000 /dev/zero | tr '\\0' x; echo; sleep 100 & exit 5")
        self.assertEqual((5, 300_001), (status, len(text)))

    def test_a_stop_reaches_what_runs(self) -> None:
        script = "trap 'echo stopped; exit 7' {}; sleep 100 & echo $$; wait"
        for number in signal.SIGHUP, signal.SIGINT, signal.SIGTERM:
            status, text = typed("setsid", "-w", "sh", "-c", script.format(number.name[3:]), numbers=(number,))
            self.assertEqual((7, ["stopped"]), (status, text.split("\n")[1:-1]))

    def test_a_second_stop_ends_what_takes_no_notice_of_the_first(self) -> None:
        script = "trap 'echo stopped' TERM; sleep 100 & echo $$; while :; do wait; done"
        for number in signal.SIGHUP, signal.SIGINT, signal.SIGTERM:
            status, text = typed("setsid", "-w", "sh", "-c", script, numbers=(signal.SIGTERM, number))
            self.assertEqual((98, ["stopped"]), (status, text.split("\n")[1:-1]))
            self.expect_end(int(text.split("\n")[0]))

    def test_what_cannot_run(self) -> None:
        self.assertEqual((127, "/nowhere: No such file or directory\n"), typed("/nowhere"))

    def test_a_terminal_that_is_gone(self) -> None:
        process, terminal = pty.fork()
        if process == 0:
            status = 99
            try:
                processes.handle_stops(signal.SIG_IGN)
                script = "trap '' PIPE; echo y; sleep 0.5; while echo y; do :; done 2>/dev/null; exit 9"
                status = relay.run(Program(["sh", "-c", script], "/", os.environ))
            finally:
                os._exit(status)
        os.read(terminal, 1)
        os.close(terminal)
        self.assertEqual(9, os.waitstatus_to_exitcode(os.waitpid(process, 0)[1]))


# What a program finds of whoever runs it: users and groups, its folder, its open files but one that this makes, whether its session is
# its own, a password, and a key of root's session.
FINDS = """
import ctypes, os
print(os.getresuid(), os.getresgid(), os.getgroups(), os.getcwd(), sorted(os.listdir("/proc/self/fd"))[:-1], os.getsid(0) == os.getpgrp())
print(os.environ.get("PASSWORD"), ctypes.CDLL(None).syscall(*map(ctypes.c_long, ({keyctl}, 10, -3)), b"user", b"roots", ctypes.c_long(0)))
"""
ADD_KEY = {"x86_64": 248, "aarch64": 217, "riscv64": 217, "ppc64le": 269, "s390x": 278}  # the number of this system call


class AnotherUser(Folder):
    def setUp(self) -> None:
        super().setUp()
        if os.geteuid() or os.uname().machine not in ADD_KEY:
            self.skipTest("only root acts as another user")
        self.session = Quiet(self.folder, PASSWORD="hunter2")
        script = FINDS.format(keyctl=kernel._KEYCTL[os.uname().machine])
        self.words = ["/usr/bin/python3", "-ISc", script]
        number, group = pwd.getpwnam("nobody")[2:4]
        self.wanted = [f"{(number,) * 3} {(group,) * 3} [{group}] / ['0', '1', '2'] True", "None -1"]

    def found(self, run: Callable[[], object]) -> list[str]:
        """What the words print if root runs them in a folder of root's, with open files and a key."""
        reads, writes = os.pipe()

        def begin() -> int:
            os.chdir(self.folder)
            kernel.leave_keyring()
            with contextlib.suppress(OSError):  # (a container may have no keys)
                kernel.called(ADD_KEY[os.uname().machine], b"user", b"roots", b"secret", 6, -3)
            for handle in 7, 70_000:
                with contextlib.suppress(OSError):  # (so many may not be open)
                    os.dup2(os.open(".", os.O_RDONLY), handle)
            os.dup2(writes, 1)
            run()
            return 0

        child = Child(begin)
        os.close(writes)
        with open(reads, "rb") as file:
            said = file.read().decode().splitlines()
        child.wait()
        return said

    def test_as_owner_gives_nothing_of_roots(self) -> None:
        self.assertEqual(self.wanted, self.found(lambda: asowner.run(self.session, ["nobody", *self.words])))

    def test_a_session_gives_nothing_of_roots(self) -> None:
        self.assertEqual(self.wanted, self.found(lambda: os.write(1, self.session.run_as("nobody", self.words, joined=True).output)))

    def test_a_program_that_stops_is_ended(self) -> None:
        self.session.environment["UUSPOOL_CALL_LIMIT"] = "5"  # (so that the program begins first)
        with mock.patch.object(processes, "_GRACE", 1), mock.patch.object(processes, "_MARGIN", 0):
            began = time.monotonic()
            ended = self.session.run_as("nobody", ["sh", "-c", "echo $$; kill -STOP $PPID $$"])
        os.kill(int(ended.output), signal.SIGKILL)  # (Nobody else ends it.)
        self.assertEqual((137, True), (ended.status, time.monotonic() - began < 60))

    def test_a_user_without_an_account(self) -> None:
        with self.assertRaisesRegex(Failure, "^3000000, as whom true has to run, has no account$"):
            self.session.run_as("3000000", ["true"])
        for words in [], ["nobody"]:
            with self.assertRaisesRegex(Failure, "missing: as-owner .* USER PROGRAM"):
                asowner.run(self.session, words)
