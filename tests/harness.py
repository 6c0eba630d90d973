#!/usr/bin/env python3
"""What the tests share: their arguments, runs of the program, its batches, the files of a spool, and
comparisons. tests/README.md says how a test uses it."""
import argparse
import collections
import contextlib
import os
import re
import shutil
import signal
import sqlite3
import subprocess
import sys
import tempfile
import time

TOP = os.path.dirname(os.path.dirname(os.path.realpath(__file__)))
# What rt ci leaves: a program of each compiler.
PROGRAMS = tuple(f"{TOP}/crates/uuspool_main/out/{name}" for name in ("uuspool_main", "uuspool_main.by-rattle"))
SETTINGS = f"{TOP}/examples/uuspool.toml"
LIMIT = 900  # seconds for one run of the program
FILES = ("spool.db", "spool.db-wal")
WORD = "-"  # the word of a test's spool, so that its bundles are the same each time
KEPT = ("database", "log")  # the same files in a folder of tests/spools
GRADES = "0123456789ABCDEFGHIJKLMNOPQRSTUVWXYZabcdefghijklmnopqrstuvwxyz"
FAILED = []  # what is said of each check that failed
MOST_AGAIN = 20  # of these at the end, so much of each
LONGEST_AGAIN = 400


class Wrong(Exception):
    """Something else came than the test expects."""


class LeftOut(Exception):
    """This machine can't do what the test needs."""


# The errors that a check may raise.
FAULTS = (Wrong, OSError, subprocess.SubprocessError, sqlite3.Error)


# ---- arguments


def parser_of(doc):
    """A parser of arguments with the usage that a test's documentation has."""
    return argparse.ArgumentParser(usage=doc.split("usage: ")[1].split("\n\n")[0], add_help=True)


def arguments(doc, groups, parser=None, programs=PROGRAMS):
    """The arguments of a test: `programs`, and `groups`, which are those of `--only` or all.
    With --list the test prints its groups and ends."""
    parser = parser or parser_of(doc)
    parser.add_argument("--list", action="store_true", help="print the groups of this test")
    parser.add_argument("--only", action="append", metavar="GROUP", help="run this group; may be given again")
    parser.add_argument("programs", nargs="*", metavar="PROGRAM")
    given = parser.parse_args()
    if given.list:
        print("\n".join(groups))
        sys.exit()
    for name in given.only or ():
        if name not in groups:
            parser.error(f"no group is called {name}: --list prints their names")
    given.groups = [name for name in groups if given.only is None or name in given.only]
    given.programs = [os.path.realpath(name) for name in given.programs] or list(programs)
    for program in given.programs:
        if not os.path.isfile(program):
            sys.exit(f"{parser.prog}: no program is at {program}: build it by make, or name another")
    return given


# ---- comparisons


def same(what, wanted, found):
    """Wrong unless both are the same."""
    if wanted != found:
        raise Wrong(f"{what}:\n  wanted {str(wanted)[:600]}\n  found  {str(found)[:600]}")


def wait_for(what, look, limit=120):
    """Waits until something is so. Wrong if it isn't after so many seconds."""
    ends = time.monotonic() + limit
    while not look():
        if time.monotonic() > ends:
            raise Wrong(f"{what}: not within {limit} seconds")
        time.sleep(0.02)


def finds_fault(check):
    """Whether a check finds an error: a test uses it to show that it can fail."""
    try:
        check()
    except Wrong:
        return True
    return False


def note_failed(said):
    """Says that a check failed, and says it again before the test's last line. Returns that for the counts."""
    print(said, flush=True)
    FAILED.append(said)
    return collections.Counter(failed=1)


def tally(where, checks, faults=FAULTS):
    """Runs checks, each a name and a function, and prints those that fail. Returns how many
    `passed`, `failed` and were `left out`."""
    counts = collections.Counter()
    try:
        for name, check in checks:
            try:
                check()
                counts["passed"] += 1
            except LeftOut as what:
                print(f"{where}: {name}: left out: {what}", flush=True)
                counts["left out"] += 1
            except faults as error:
                counts += note_failed(f"{where}: {name}: {error}")
    except faults as error:
        counts += note_failed(f"{where}: {error}")
    return counts


def say_again(what):
    """Prints in one line each what failed. Whoever sees just the end of a long output knows it by that."""
    for said in FAILED[:MOST_AGAIN]:
        print(f"{what}: failed: {' '.join(said.removeprefix(f'{what}: ').split())[:LONGEST_AGAIN]}")
    if len(FAILED) > MOST_AGAIN:
        print(f"{what}: failed: {len(FAILED) - MOST_AGAIN} more")


def ended(what, counts):
    """Prints what failed again, and a test's last line, and returns its status."""
    say_again(what)
    left = f", {counts['left out']} left out" if "left out" in counts else ""
    print(f"{what}: {counts['passed']} passed, {counts['failed']} failed{left}")
    return 1 if counts["failed"] or not counts["passed"] else 0


# ---- runs of a program


def run(words, given=b"", limit=LIMIT, **how):
    """The status, output and error of a command."""
    source = {} if "stdin" in how else {"input": given}
    how = {"stdout": subprocess.PIPE, "stderr": subprocess.PIPE, **source, **how}
    ran = subprocess.run(words, timeout=limit, check=False, **how)
    return ran.returncode, ran.stdout, ran.stderr


def output_of(words, given=b"", limit=LIMIT, **how):
    """The output of a command, which has to end with status 0."""
    status, output, error = run(words, given, limit, **how)
    if status:
        told = ((output or b"") + (error or b""))[-600:].decode(errors="replace")
        raise Wrong(f"{' '.join(map(str, words))[:200]}: status {status}: {told}")
    return output


# ---- batches


def framed(requests):
    """Requests, each its words and its input, as the stream of a batch."""
    texts = ((words if isinstance(words, bytes) else words.encode(), given) for words, given in requests)
    return b"".join(b"%d %s\n%s" % (len(given), words, given) for words, given in texts)


def answers_in(text):
    """The answers that a batch wrote: the status and the text of each."""
    at = 0
    while head := re.compile(rb"(\d+) (\d+) (\d+)\n").match(text, at):
        at = head.end() + int(head[2]) + int(head[3])
        yield int(head[1]), text[head.end() : at]
    if at != len(text):
        raise Wrong(f"behind the answers of a batch stands {text[at : at + 80]!r}")


def batch(program, folder, requests, limit=LIMIT):
    """The answers of a batch to requests: the status and the text of each."""
    status, output, _ = run([program, "batch"], framed(requests), limit, cwd=folder)
    answers = list(answers_in(output))
    if status or len(answers) != len(requests):
        raise Wrong(f"{len(answers)} of {len(requests)} requests were answered, with status {status}")
    return answers


def texts_of(program, folder, requests, limit=LIMIT):
    """The texts of a batch's answers to requests, each of which has to end with status 0."""
    answers = batch(program, folder, requests, limit)
    for (words, _), (status, text) in zip(requests, answers):
        if status:
            raise Wrong(f"`{words}` ended with status {status}: {text!r}")
    return [text.decode() for _, text in answers]


class Batch:
    """A batch that gets one request after the other."""

    def __init__(self, program, folder):
        self.process = subprocess.Popen([program, "batch"], cwd=folder, stdin=subprocess.PIPE, stdout=subprocess.PIPE, stderr=subprocess.DEVNULL)

    def put(self, words, given=b""):
        self.process.stdin.write(framed([(words, given)]))

    def take(self):
        """The text of the next answer, which has to have status 0. EOFError if the batch ended."""
        self.process.stdin.flush()
        head = self.process.stdout.readline()
        if not head.endswith(b"\n"):
            raise EOFError
        status, output, error = map(int, head.split())
        text = self.process.stdout.read(output + error)
        if len(text) < output + error:
            raise EOFError
        if status:
            raise Wrong(f"a request is answered {text!r}, with status {status}")
        return text

    def ask(self, words, given=b""):
        self.put(words, given)
        return self.take()

    def leave(self):
        """Closes this end of its streams. The batch ends if nobody else has them."""
        for stream in (self.process.stdin, self.process.stdout):
            with contextlib.suppress(BrokenPipeError):
                stream.close()


# ---- the files of a spool


@contextlib.contextmanager
def folder_of(begun=None, in_memory=False, program=None):
    """A folder with the settings of examples/, with the files of another folder's spool, or with a
    new spool that a program makes."""
    place = "/dev/shm" if in_memory and os.path.isdir("/dev/shm") else None
    with tempfile.TemporaryDirectory(prefix="spool-", dir=place) as folder:
        shutil.copy(SETTINGS, folder)
        if begun:
            copy_files(begun, folder)
        elif program:
            init(program, folder)
        put_word(folder)
        yield folder


def init(program, folder, word=WORD):
    """Makes the spool of a folder, which has its settings, and gives it a word."""
    same("init", b"done\n", output_of([program, "init"], cwd=folder))
    put_word(folder, word)


def put_word(folder, word=WORD):
    """Gives a spool this word."""
    write(f"{folder}/{FILES[0]}-word", f"{word}\n", 0o600)


def copy_files(source, target):
    """Copies the files of a spool that are there."""
    for name in FILES:
        with contextlib.suppress(FileNotFoundError):
            shutil.copy(f"{source}/{name}", f"{target}/{name}")


def put_kept(version, folder):
    """Replaces a spool's files with those that a program of an earlier version left."""
    for name, kept in zip(FILES, KEPT):
        shutil.copy(f"{TOP}/tests/spools/version-{version}/{kept}", f"{folder}/{name}")


def contents_of(folder):
    """The bytes of a spool's files; None for one that isn't there."""
    found = []
    for name in FILES:
        found.append(None)
        with contextlib.suppress(FileNotFoundError), open(f"{folder}/{name}", "rb") as file:
            found[-1] = file.read()
    return tuple(found)


def put_contents(folder, contents):
    """Makes the files of a spool with these bytes."""
    for name, data in zip(FILES, contents):
        with contextlib.suppress(FileNotFoundError):
            os.remove(f"{folder}/{name}")
        if data is not None:
            write(f"{folder}/{name}", data)


@contextlib.contextmanager
def copied(folder):
    """A connection to a copy of a spool's files, because SQLite would write the files that it
    opens."""
    with tempfile.TemporaryDirectory() as room:
        copy_files(folder, room)
        with contextlib.closing(sqlite3.connect(f"{room}/{FILES[0]}", isolation_level=None)) as conn:
            yield conn


def dump_of(folder):
    """The tables and rows of a spool, as statements that make them."""
    with copied(folder) as conn:
        return "\n".join(conn.iterdump())


def write(path, text, mode=None):
    """Writes a file with a text or with bytes, and makes its folder. A link is replaced, and not
    followed."""
    os.makedirs(os.path.dirname(path) or ".", exist_ok=True)
    if os.path.islink(path):
        os.remove(path)
    with open(path, "wb") as file:
        file.write(text if isinstance(text, bytes) else text.encode())
    if mode is not None:
        os.chmod(path, mode)


def text_of(path):
    with open(path, encoding="utf-8") as file:
        return file.read()


# ---- the commands beside the program


def install(prefix, program=None):
    """Installs calls, deliveries and the commands of other UUCPs below a prefix, and the program if
    one is given."""
    words = [f"{TOP}/scripts/install-commands", prefix, *(["", program] if program else [])]
    subprocess.run(words, check=True, stdout=subprocess.DEVNULL)


@contextlib.contextmanager
def stopped(process):
    """A process that is stopped meanwhile. It isn't before it has run again after the signal."""
    os.kill(process, signal.SIGSTOP)
    wait_for("a process that is stopped", lambda: text_of(f"/proc/{process}/stat").rpartition(")")[2].split()[0] == "T")
    try:
        yield
    finally:
        with contextlib.suppress(ProcessLookupError):
            os.kill(process, signal.SIGCONT)


def processes_of(prefix):
    """The processes that run something below a prefix, each by its words."""
    for name in filter(str.isdigit, os.listdir("/proc")):
        with contextlib.suppress(OSError), open(f"/proc/{name}/cmdline", "rb") as file:
            words = file.read().decode(errors="replace").split("\0")
            if any(word.startswith(f"{prefix}/") for word in words):
                yield " ".join(words)


def expect_none_left(prefix):
    """The processes of commands that were installed below a prefix end, each by itself."""
    with contextlib.suppress(Wrong):
        wait_for("the end of all processes", lambda: not any(processes_of(prefix)))
    same("processes that are left", [], [*processes_of(prefix)])


# ---- what uucico begins, but not within its bounds


def reach(top, words):
    """Has `Outside` run a program with the streams of this process, which Landlock confines, and waits for its end. What is
    written after that goes nowhere, as into a line."""
    import json
    import socket

    with socket.socket(socket.AF_UNIX) as line:
        line.connect(f"{top}/outside")
        socket.send_fds(line, [json.dumps([words, dict(os.environ)]).encode()], [0, 1, 2])
        line.recv(1)
    os.close(1)
    while os.read(0, 1 << 16):
        pass


class Outside:
    """The neighbour at the other end of a line, which is another machine's: it runs what `reach` asks for."""

    def __init__(self, top):
        import socket
        import threading

        self._socket = socket.socket(socket.AF_UNIX)
        self._socket.bind(f"{top}/outside")
        self._socket.listen(64)
        threading.Thread(target=self._serve, daemon=True).start()

    def _serve(self):
        import threading

        with contextlib.suppress(OSError):
            while True:
                threading.Thread(target=self._run, args=self._socket.accept()[:1], daemon=True).start()

    @staticmethod
    def _run(line):
        import json
        import socket

        with line, contextlib.suppress(OSError, ValueError):
            text, handles, _, _ = socket.recv_fds(line, 1 << 17, 3)
            try:
                words, environment = json.loads(text)
                child = subprocess.Popen(words, stdin=handles[0], stdout=handles[1], stderr=handles[2], env=environment)
            finally:
                for handle in handles:
                    os.close(handle)
            child.wait()


def of_mail(data):
    """Bytes that mail may have and keep: what begins with a blank gets an empty line before it."""
    return b"x" + data[1:] if data.startswith((b" ", b"\t")) else data
