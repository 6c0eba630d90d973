"""Programs that are run, locks, and files that are replaced."""
import ctypes
import errno
import os
import pty
import re
import resource
import signal
import threading
import time
from collections.abc import Sequence
from unittest import mock

from uuspool_calls import cli, contacts, files, kernel, night
from uuspool_calls import processes as running
from uuspool_calls.errors import Failure, Stopped
from uuspool_calls.processes import Child, Children, Processes, Program
from uuspool_calls.session import Session

from . import standins
from .standins import Closing, Folder, Quiet

_DUMPABLE = 4  # for the kernel: whether this process may be traced by others of its user
_NEW_MOUNTS = 0x20000  # what is mounted from now on only this process, and what it begins, sees
_PRIVATE = 0x44000  # also nothing is mounted for others


def _is_hiding() -> bool:
    """From now on this process is nobody's, and /proc hides what nobody may not trace. False if that can't be."""
    libc = ctypes.CDLL(None, use_errno=True)
    if libc.unshare(_NEW_MOUNTS) or libc.mount(None, b"/", None, ctypes.c_ulong(_PRIVATE), None):
        return False
    if libc.mount(b"proc", b"/proc", b"proc", ctypes.c_ulong(0), b"hidepid=invisible"):
        return False
    os.setgroups([])
    os.setresgid(65534, 65534, 65534)
    os.setresuid(65534, 65534, 65534)
    kernel.control(_DUMPABLE, 1)
    return not os.path.exists("/proc/1")


class Programs(Folder):
    def run_words(self, *words: str, given: bytes = b"", joined: bool = False, **how: object):  # type: ignore[no-untyped-def]
        program = Program(words, self.folder, dict(os.environ), **how)  # type: ignore[arg-type]
        return Closing().run(program, given, joined)

    def sh(self, script: str, **how: object):  # type: ignore[no-untyped-def]
        return self.run_words("sh", "-c", script, **how)

    def test_statuses(self) -> None:
        self.assertEqual([0, 7, 137], [self.sh(it).status for it in ("true", "exit 7", "kill -KILL $$")])
        self.assertEqual([127, 127], [self.run_words("/nowhere", **how).status for how in ({}, {"limit": 5})])

    def test_what_cannot_be_executed(self) -> None:
        script = self.put("script", "no program")
        self.assertEqual((126, b"%s: Permission denied\n" % script.encode()), self.run_words(script)[0:3:2])
        os.chmod(script, 0o755)
        self.assertEqual((127, b"%s: Exec format error\n" % script.encode()), self.run_words(script)[0:3:2])
        self.assertEqual(127, Closing().run(Program(["true"], "/nowhere", dict(os.environ))).status)

    def test_what_a_program_has(self) -> None:
        """Signals as the system gives them but SIGXFSZ, and no file but its streams. What was ignored before stays so, as by nohup."""
        size = 1 << signal.SIGXFSZ - 1
        for number in signal.SIGHUP, signal.SIGINT, signal.SIGQUIT:
            self.addCleanup(signal.signal, number, signal.signal(number, signal.SIG_DFL))
        with open("/dev/null", "rb") as file:
            os.set_inheritable(file.fileno(), True)
            self.assertEqual(b"0\n1\n2\n", self.sh("ls /proc/$$/fd").output)
            with open("/dev/null", "rb") as other, open("/dev/null", "rb") as third:
                kept = third.fileno(), file.fileno()
                self.assertEqual({0, 1, 2, *kept}, set(map(int, self.sh("ls /proc/$$/fd", keeps=kept).output.split())), other)
                self.assertFalse(os.get_inheritable(third.fileno()))
        self.assertEqual([0, size], self.blocked_and_ignored())
        signal.signal(signal.SIGHUP, signal.SIG_IGN)
        self.assertEqual([0, size | 1 << signal.SIGHUP - 1], self.blocked_and_ignored())

    def blocked_and_ignored(self) -> list[int]:
        """Two sets of signals, without those that the C library keeps for itself, which make has its programs ignore."""
        words = self.run_words("grep", "-E", "SigBlk|SigIgn", "/proc/self/status").output.split()
        return [int(word, 16) & (1 << signal.SIGSYS) - 1 for word in words[1::2]]

    def test_a_limit_of_a_files_size_ends_no_program(self) -> None:
        self.assertEqual((0, b"failed\n"), self.sh("{ ulimit -f 0; echo x >file; } 2>/dev/null || echo failed")[:2])

    def test_outputs(self) -> None:
        ended = self.sh("echo out; echo err >&2")
        self.assertEqual((b"out\n", b"err\n"), (ended.output, ended.errors))
        self.assertEqual(b"out\nerr\n", self.sh("echo out; echo err >&2", joined=True).output)

    def test_an_input_is_a_file_that_can_be_read_again(self) -> None:
        self.assertEqual(b"abcabc", self.sh("cat; [ -f /dev/stdin ] && cat /dev/stdin", given=b"abc").output)

    def test_large_outputs_while_nothing_is_read(self) -> None:
        data = os.urandom(3_000_000)
        self.assertEqual(data, self.run_words("cat", given=data).output)

    def test_how_much_of_its_input_a_program_read(self) -> None:
        data, seen = os.urandom(200_000), set()

        def watch(read: int, output: bytearray) -> None:
            seen.add((read, len(output)))
            if (70_000, 70_000) in seen:
                self.put("seen", "")

        script = "head -c 70000; until [ -e seen ]; do sleep 0.1; done; head -c 30000 | tail -c 1"
        program = Program(["timeout", "60", "sh", "-c", script], self.folder, dict(os.environ))
        ended = Closing().run(program, data, watch=watch)
        self.assertEqual((100_000, 70_001), (ended.read, len(ended.output)))
        self.assertEqual([0, 200_000], [self.sh(script, given=data).read for script in ("exit 1", "cat; exit 1")])

    def test_what_writes_too_much(self) -> None:
        ended = self.sh("head -c 3000000 /dev/zero; exit 3", most=1000)
        self.assertEqual((3, 1001, True), (ended.status, len(ended.output), ended.wrote_too_much))
        self.assertEqual([True] * 10, [self.sh("echo 1234", most=3).wrote_too_much for _ in range(10)])  # (at its end)
        ended = self.run_words("cat", "/dev/zero", most=1000, ends_beyond=True, limit=60)
        self.assertEqual((1001, True), (len(ended.output), ended.wrote_too_much))

    def test_a_program_that_stops_what_should_end_it(self) -> None:
        before = running._GRACE, running._MARGIN
        running._GRACE, running._MARGIN = 1, 0
        try:
            began = time.monotonic()
            # (The limit is long enough for the program to begin first.)
            self.assertEqual(137, self.sh("kill -STOP $PPID; sleep 60", limit=5).status)
            self.assertLess(time.monotonic() - began, 40)
        finally:
            running._GRACE, running._MARGIN = before

    def test_limits_end_children_too(self) -> None:
        begun = time.monotonic()
        ended = self.sh("sleep 1000 & echo $!; sleep 1000", limit=0.3)
        self.assertEqual(124, ended.status)
        while os.path.exists(f"/proc/{int(ended.output)}/exe") and time.monotonic() - begun < 60:
            time.sleep(0.02)
        self.assertLess(time.monotonic() - begun, 60)

    def test_what_has_a_limit_has_no_terminal(self) -> None:
        """What is a stranger's always has one. What has none may ask for a password."""
        for how, has in ({}, True), ({"limit": 60}, False), ({"limit": 60, "leaves_terminal": True}, False), ({"leaves_terminal": True}, False):
            process, terminal = pty.fork()
            if process == 0:
                os._exit(self.sh("exec </dev/tty", **how).status)
            status = os.waitstatus_to_exitcode(os.waitpid(process, 0)[1])
            os.close(terminal)
            self.assertEqual(has, status == 0, how)

    def test_a_daemon_that_is_left_behind_isnt_waited_for(self) -> None:
        begun = time.monotonic()
        ended = self.sh("echo before; setsid sleep 60 & exit 0", limit=60)
        self.assertEqual(b"before\n", ended.output)
        self.assertLess(time.monotonic() - begun, 40)


    def test_what_it_does_before_has_its_streams_alone(self) -> None:
        """As it may be another user's from then on, who stops it: nobody waits for the end of a pipe that it has, besides these."""
        reads, writes = os.pipe()
        os.set_inheritable(writes, True)
        seen = f"{self.folder}/seen"

        def first() -> None:
            with open(seen, "w", encoding="utf-8") as file:
                file.write(" ".join(it for it in os.listdir("/proc/self/fd") if os.path.lexists(f"/proc/self/fd/{it}") and os.readlink(f"/proc/self/fd/{it}") != seen))

        try:
            self.assertEqual(0, Closing().run(Program(["true"], "/", {"PATH": "/usr/bin:/bin"}, first=first)).status)
        finally:
            os.close(reads)
            os.close(writes)
        with open(seen, encoding="utf-8") as file:
            self.assertEqual(["0", "1", "2"], sorted(file.read().split()))


class Stops(Folder):
    def in_child(self, work, begun: str = "") -> int:  # type: ignore[no-untyped-def]
        """The status of a process that is stopped within its work, once this file has something."""
        ready, told = os.pipe()
        child = os.fork()
        if child == 0:
            try:
                processes = Closing()
                processes.catch_stops()
                os.write(told, b"x")
                work(processes)
                os._exit(0)
            except Stopped:
                os._exit(75)
        os.read(ready, 1)
        ends = time.monotonic() + 60
        while begun and not files.read_bytes(f"{self.folder}/{begun}") and time.monotonic() < ends:
            time.sleep(0.02)
        time.sleep(0.3)
        os.kill(child, signal.SIGTERM)
        before = time.monotonic()
        status = os.waitstatus_to_exitcode(os.waitpid(child, 0)[1])
        self.assertLess(time.monotonic() - before, 30)
        return status

    def sleeper(self) -> Program:
        return Program(["sh", "-c", f"echo $$ >{self.folder}/pid; sleep 1000"], self.folder, dict(os.environ), 100)

    def test_what_stopped_the_timeout_is_ended(self) -> None:
        script = f"kill -STOP $PPID; echo $$ >{self.folder}/pid; sleep 100"
        with mock.patch.multiple(running, _GRACE=1, _MARGIN=1):
            program = Program(["sh", "-c", script], self.folder, dict(os.environ), 200)
            self.assertEqual(75, self.in_child(lambda processes: processes.run(program), "pid"))
        os.kill(int(self.bytes_of("pid")), signal.SIGKILL)

    def test_what_may_take_long_is_ended(self) -> None:
        self.assertEqual(75, self.in_child(lambda processes: processes.run(self.sleeper()), "pid"))
        number = int(self.bytes_of("pid"))
        self.assertFalse(os.path.exists(f"/proc/{number}/exe"))

    def test_what_fails_leaves_nothing(self) -> None:
        """Also if it ends its `timeout`, or begins a session. What ends well leaves it: a mailer goes on so."""
        far = f"setsid sh -c 'sleep 1000 & echo $! >{self.folder}/pid; exec sleep 1000' & until [ -s pid ]; do sleep 0.02; done"
        for script, limit, status in (
            ("echo $$ >pid; kill -KILL $PPID; sleep 1000", 100, 137), (f"{far}; exit 3", 100, 3), (f"{far}; sleep 1000", 5, 124), (f"{far}; kill -KILL $PPID", 100, 137), (f"{far}; exit 0", 100, 0),
        ):  # fmt: skip
            program = Program(["sh", "-c", script], self.folder, dict(os.environ), limit, leaves_none=True)
            child = Child(lambda program=program: Closing().run(program).status)
            self.assertEqual(status, child.wait(), script)
            number = int(self.bytes_of("pid"))
            self.assertEqual(status != 0, not os.path.exists(f"/proc/{number}/exe"), script)
            if not status:
                os.kill(number, signal.SIGKILL)
            os.remove(f"{self.folder}/pid")

    def test_others_are_left(self) -> None:
        def work() -> int:
            other = Child(lambda: time.sleep(100) or 0)
            Closing().run(Program(["sh", "-c", "sleep 1000 & exit 3"], self.folder, dict(os.environ), 100, leaves_none=True))
            left = running._children()
            other.kill()
            return 0 if left == {other.pid} else 1

        self.assertEqual(0, Child(work).wait())

    def test_what_proc_hides_is_ended_too(self) -> None:
        """Below ProtectProc=invisible a user doesn't see its own processes that it may not trace."""
        if os.geteuid():
            self.skipTest("only root can mount /proc so that it hides processes")
        source, sink = os.pipe()

        def begin_far() -> None:
            if os.fork() == 0:
                os.setsid()
                kernel.control(_DUMPABLE, 0)
                os.write(sink, b"%d" % os.getpid())
                time.sleep(1000)
                os._exit(0)
            number = os.read(source, 20)
            os.write(sink, number if not os.path.exists(os.fsdecode(b"/proc/" + number)) else b"0")

        def work() -> int:
            if not _is_hiding():
                return 77
            return Closing().run(Program(["sh", "-c", "exit 3"], "/", dict(os.environ), 100, first=begin_far, leaves_none=True, keeps=(source, sink))).status

        status = Child(work).wait()
        if status == 77:
            self.skipTest("/proc can't be mounted here so that it hides processes")
        self.assertEqual(3, status)
        number = int(os.read(source, 20))
        self.assertNotEqual(0, number)  # (It is hidden.)
        is_left = os.path.exists(f"/proc/{number}/exe")
        if is_left:
            os.kill(number, signal.SIGKILL)
        self.assertFalse(is_left)

    def test_a_kernel_without_lists_of_children(self) -> None:
        def work() -> int:
            child = Child(lambda: time.sleep(100) or 0)
            found = running._children()
            child.kill()
            child.wait()
            return 0 if (found, running._children()) == ({child.pid}, set()) else 1

        with mock.patch.object(running, "read_bytes", lambda path: None if path.endswith("/children") else files.read_bytes(path)):
            self.assertEqual(0, Child(work).wait())

    def test_what_cannot_be_ended_is_not_waited_for(self) -> None:
        begun = time.monotonic()
        with mock.patch.object(running, "_MARGIN", 0.3), mock.patch("os.kill"):
            child = Child(lambda: time.sleep(100) or 0)
            running._end_children(())
        child.kill()
        self.assertEqual((137, True), (child.wait(), 0.3 <= time.monotonic() - begun < 30))

    def test_a_signal_that_is_ignored_ends_nothing(self) -> None:
        def work(processes: Processes) -> None:
            os.kill(os.getpid(), signal.SIGHUP)
            processes.pause(0.1)
            self.put("went on", "x")
            processes.pause(100)

        self.addCleanup(signal.signal, signal.SIGHUP, signal.signal(signal.SIGHUP, signal.SIG_IGN))
        self.assertEqual(75, self.in_child(work, "went on"))
        self.assertTrue(os.path.exists(f"{self.folder}/went on"))

    def test_what_is_short_ends_by_itself(self) -> None:
        program = Program(["sh", "-c", "echo >begun; sleep 1; echo done >done"], self.folder, dict(os.environ))

        def work(processes: Processes) -> None:
            self.put("status", str(processes.run(program).status))
            while True:  # (On a slow machine the stop comes later.)
                processes.run(program)

        self.assertEqual(75, self.in_child(work, "begun"))
        self.assertEqual((b"done\n", b"0"), (self.bytes_of("done"), self.bytes_of("status")))

    def test_what_is_finished_is_ended_by_no_stop_of_all(self) -> None:
        short = Program(["sh", "-c", "kill -TERM 0; echo done >done"], self.folder, dict(os.environ))

        def work(processes: Processes) -> None:
            os.setsid()
            with processes.finishing():
                for program in short, self.sleeper():
                    self.put(f"{program.limit}.status", str(processes.run(program).status))

        self.assertEqual(75, self.in_child(work, "100.status"))
        self.assertEqual((b"done\n", b"0", b"143"), tuple(map(self.bytes_of, ("done", "None.status", "100.status"))))

    def test_waits_are_ended(self) -> None:
        for work in (
            lambda processes: processes.pause(100),
            lambda processes: processes.read_input(os.pipe()[0], 10, 100),
            lambda processes: processes.write_output(os.pipe()[1], bytes(1_000_000), 100),
        ):
            self.assertEqual(75, self.in_child(work))

    def test_children_are_ended(self) -> None:
        def work(processes: Processes) -> None:
            with Children(processes, 1) as others, Children(processes, 2) as children:
                others.start(lambda: Child(lambda: self.wait_for_stop(processes, "other")))
                children.start(lambda: Child(lambda: self.wait_for_stop(processes, "child")))
                children.wait()

        self.assertEqual(75, self.in_child(work, "child.begun"))
        self.assertEqual([b"stopped"] * 2, [self.bytes_of("child"), self.bytes_of("other")])

    def wait_for_stop(self, processes: Processes, name: str) -> int:
        processes.begin_as_child()
        try:
            self.put(f"{name}.begun", "x")
            processes.pause(100)
        except Stopped:
            self.put(name, "stopped")
        return 0


class Side(Folder):
    def test_so_many_at_a_time(self) -> None:
        processes, most = Closing(), []

        def work() -> int:
            os.close(os.open(f"{self.folder}/{os.getpid()}", os.O_CREAT))
            count = len(os.listdir(self.folder))
            time.sleep(0.2)
            os.remove(f"{self.folder}/{os.getpid()}")
            return count

        with Children(processes, 3) as children:
            for _ in range(7):
                children.start(lambda: Child(work))
            children.wait()
        most = [status for _, status in children.ended]
        self.assertEqual((7, True), (len(most), 1 <= max(most) <= 3))

    def test_a_wait_for_a_place_and_for_an_end(self) -> None:
        processes = Closing()
        source, sink = os.pipe()
        with Children(processes, 1) as children:
            self.assertTrue(children.has_place(0))
            children.start(lambda: Child(lambda: len(os.read(source, 1))))
            self.assertFalse(children.has_place(0.2))
            children.wait(0.2)
            self.assertEqual([], children.ended)
            os.write(sink, b"x")
            self.assertTrue(children.has_place(60))
            self.assertEqual([(0, 1)], children.ended)
            children.wait(60)

    def test_a_lock_that_is_given_back_is_not_kept_by_children(self) -> None:
        with files.Lock(f"{self.folder}/lock") as lock, files.Lock(f"{self.folder}/lock") as other:
            self.assertTrue(lock.take())
            child = Child(lambda: time.sleep(100) or 0)
            self.assertFalse(other.take())
            lock.give_back()
            self.assertTrue(other.take())
            child.kill()
            child.wait()

    def test_inputs(self) -> None:
        processes = Closing()
        source, sink = os.pipe()
        os.write(sink, b"abcdef")
        self.assertEqual(b"abcd", processes.read_input(source, 3, 5))
        self.assertIsNone(processes.read_input(source, 100, 0.2))
        os.close(sink)
        self.assertEqual(b"", processes.read_input(source, 100, 5))

    def test_outputs_to_a_slow_reader(self) -> None:
        source, sink = os.pipe()
        data, read = os.urandom(300_000), bytearray()

        def reader() -> None:
            while block := os.read(source, 7000):
                read.extend(block)

        thread = threading.Thread(target=reader)
        thread.start()
        Closing().write_output(sink, data, 10)
        os.close(sink)
        thread.join()
        self.assertEqual(data, bytes(read))

    def test_many_open_files(self) -> None:
        """Whoever begins a command may have left more open than select takes."""

        def work() -> int:
            most = resource.getrlimit(resource.RLIMIT_NOFILE)[1]
            resource.setrlimit(resource.RLIMIT_NOFILE, (min(most, 4096), most))
            for _ in range(1100):
                os.open(os.devnull, os.O_RDONLY)
            processes, (source, sink) = Closing(), os.pipe()
            processes.write_output(sink, b"abc", 10)
            read = processes.read_input(source, 2, 10)
            ended = processes.run(Program(["cat"], "/", dict(os.environ)), b"x" * 300_000)
            return 0 if (source > 1023, read, ended.output) == (True, b"abc", b"x" * 300_000) else 1

        self.assertEqual(0, Child(work).wait())

    def test_outputs_that_nobody_takes(self) -> None:
        with self.assertRaisesRegex(Failure, "nobody took [0-9]+ of 300000 bytes within 1 seconds"):
            Closing().write_output(os.pipe()[1], bytes(300_000), 1)


class Files(Folder):
    def test_replaced(self) -> None:
        for data in b"first", b"":
            files.replace(f"{self.folder}/x", data)
            self.assertEqual((data, ["x"]), (self.bytes_of("x"), os.listdir(self.folder)))
        with files.memory_file(b"of an open file") as content:
            files.replace(f"{self.folder}/x", content, 0o644)
        self.assertEqual((b"of an open file", 0o644), (self.bytes_of("x"), os.stat(f"{self.folder}/x").st_mode & 0o777))

    def test_a_folder_is_not_replaced(self) -> None:
        os.mkdir(f"{self.folder}/x")
        with self.assertRaises(IsADirectoryError) as caught:
            files.replace(f"{self.folder}/x", b"data")
        self.assertEqual((f"{self.folder}/x", ["x"]), (caught.exception.filename, os.listdir(self.folder)))

    def test_a_full_disk_keeps_nothing_of_what_cannot_be_written(self) -> None:
        for name in "write", "fsync":
            self.put("x", "before")
            with mock.patch(f"os.{name}", side_effect=OSError(errno.ENOSPC, "full")), self.assertRaises(OSError) as caught:
                files.write_record(f"{self.folder}/x", {"a": 1})
            self.assertEqual((f"{self.folder}/x", ["x"], b"before"), (caught.exception.filename, os.listdir(self.folder), self.bytes_of("x")))
        for name in "x", ".x.new", ".y.new", ".z.new":
            self.put(name)
        for name in "x", "y", "w":
            files.forget(f"{self.folder}/{name}")
        self.assertEqual([".z.new"], os.listdir(self.folder))

    def test_what_cannot_be_written_is_named(self) -> None:
        """The system's own error with an open file has no path."""

        def fails(session: Session, words: Sequence[str]) -> int:
            with files.opened("/dev/full", os.O_WRONLY) as handle:
                files.sync(handle) if words else files.write_all(handle, b"x")
            return 0

        for words, why in ([], "No space left on device"), (["sync"], "Invalid argument"):
            session = Quiet(self.folder)
            self.assertEqual((75, [f"/dev/full: {why}"]), (cli.run(session, fails, words), session.said))

    def test_fresh(self) -> None:
        for age, minutes, fresh in (0, 1, True), (3700, 60, False), (3500, 60, True), (-86400, 60, False), (0, 0, False):
            self.assertEqual(fresh, contacts.is_fresh(int(time.time()) - age, minutes), (age, minutes))

    def test_contacts(self) -> None:
        known = contacts.Contacts(self.folder)
        self.assertEqual(contacts.Contact(), known.find("duke"))
        known.change("duke", held=True, called=7)
        known.change("duke", same="x")
        self.assertEqual(contacts.Contact(held=True, called=7, same="x"), known.find("duke"))
        self.assertEqual((["duke"], ["duke.json"]), (known.held(), os.listdir(f"{self.folder}/calls")))
        for text in b"", b"{", b"[]", b'{"held": "yes", "called": null, "more": 1, "other": null}':
            self.put("calls/duke.json", text)
            self.assertEqual(contacts.Contact(), known.find("duke"), text)

    def test_a_large_record_of_contacts(self) -> None:
        site, path = standins.site(self.folder, standins.StandIn()), f"{self.folder}/calls/duke.json"
        self.put("calls/duke.json", b'{"held": true, "same": "%s"}' % (b"x" * ((1 << 16) - 30)))
        self.assertEqual(["duke"], site.contacts.held())
        self.put("calls/duke.json", b'{"held": true}' + b" " * (1 << 16))
        why = f"{path} has more than 64 KiB, so these commands did not write it: remove it as the spool's user, and hold duke again if it was held"
        for uses in site.contacts.held, lambda: site.contacts.change_if_possible("duke", called=1):
            with self.assertRaisesRegex(Failure, f"^{re.escape(why)}$"):
                uses()
        self.put("etc/calls/duke", "ssh duke.example")
        self.put("lib/uuspool/carriers/ssh", "", 0o755)
        self.assertFalse(night.Night(site)._is_quiet("duke", 60))
        self.assertEqual([why], site.session.said)  # type: ignore[attr-defined]

    def test_many_changes_of_contacts_at_once(self) -> None:
        known = contacts.Contacts(self.folder)
        changes = {"held": True, "called": 7, "same": "x", "left": "y", "grade": "N"}
        with Children(Closing(), 8) as children:
            for name, value in changes.items():
                children.start(lambda name=name, value=value: Child(lambda: known.change("duke", **{name: value}) or 0))  # type: ignore[misc]
            children.wait()
        self.assertEqual(changes, {name: getattr(known.find("duke"), name) for name in changes})

    def test_locks(self) -> None:
        path = f"{self.folder}/lock"
        with files.Lock(path) as one, files.Lock(path) as other:
            self.assertTrue(one.take())
            self.assertFalse(other.take())
            self.assertFalse(other.wait(0.2, time.sleep))
            self.assertTrue(one.is_current())
            os.remove(path)
            self.assertFalse(one.is_current())
            self.put("lock")
            self.assertFalse(one.is_current())
