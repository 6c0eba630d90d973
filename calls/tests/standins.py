"""What stands for a session, a site and its spool."""
import contextlib
import os
import shutil
import signal
import tempfile
import time
import unittest
from collections.abc import Callable, Sequence

from uuspool_calls.errors import SpoolError
from uuspool_calls.files import Lock
from uuspool_calls.jobs import Job, Parcel
from uuspool_calls.processes import Ended, Processes
from uuspool_calls.session import Session
from uuspool_calls.settings import Settings
from uuspool_calls.site import Site
from uuspool_calls.spool import Due, Line, Queued, Settled, Unpacked

# What `uuspool site` prints in a folder.
SITE = "name mysite\nsettings {0}/uuspool.toml\nfolder {0}\nspool {0}/s/a b.db\nlog {0}/s/log\n"
LINE = "7 duke ann N 2026-11-28 10:00:00 5 exec rmail joe"


def parcel(line: str = LINE, data: bytes = b"hello") -> Parcel:
    """A job with its bytes."""
    return Parcel.read(line.encode() + b"\n" + data)


class Closing(Processes):
    """What runs programs for one test, and leaves no open file behind for the others."""

    def __del__(self) -> None:
        if (woken := signal.set_wakeup_fd(-1)) != self._waker:
            signal.set_wakeup_fd(woken)
        for handle in self._wake, self._waker:
            os.close(handle)


class Folder(unittest.TestCase):
    """A test with a folder of its own."""

    def give(self, path: str) -> None:
        """Gives a file to another user, if this may."""
        if os.geteuid():
            self.skipTest("only root can give a file to another user")
        os.chown(path, 1, 1)

    def setUp(self) -> None:
        self.folder = os.path.realpath(tempfile.mkdtemp(prefix="calls-units-"))
        self.addCleanup(shutil.rmtree, self.folder, ignore_errors=True)

    def put(self, path: str, text: str | bytes = b"", mode: int = 0o644) -> str:
        """Writes a file below the folder."""
        path = f"{self.folder}/{path}"
        os.makedirs(os.path.dirname(path), exist_ok=True)
        with open(path, "wb") as file:
            file.write(text.encode() if isinstance(text, str) else text)
        os.chmod(path, mode)
        return path

    def put_program(self) -> None:
        """A program that knows its site, and the settings that it names."""
        self.put("uuspool.toml")
        self.put("bin/uuspool", f"#!/bin/sh\ncat <<'END'\n{SITE.format(self.folder)}END\n", 0o755)

    def bytes_of(self, path: str) -> bytes:
        """What a file below the folder has."""
        with open(f"{self.folder}/{path}", "rb") as file:
            return file.read()

    def expect_end(self, process: int) -> None:
        """A process that isn't ours ends, or has ended."""
        ends = time.monotonic() + 30
        while os.path.exists(f"/proc/{process}/exe"):
            self.assertLess(time.monotonic(), ends)
            time.sleep(0.01)


class Quiet(Session):
    """A session that keeps what it says."""

    def __init__(self, folder: str, **variables: str) -> None:
        environment = {"PATH": os.environ["PATH"], "UUSPOOL_ETC": f"{folder}/etc", **variables}
        super().__init__("test", environment, f"{folder}/lib/uuspool")
        self.processes.__class__ = Closing
        self.said: list[str] = []
        self.printed: list[str] = []

    def say(self, sentence: str) -> None:
        self.said.append(sentence)

    def print(self, line: str) -> None:
        self.printed.append(line)


class StandIn:
    """A spool that answers from tables, and keeps what it is asked."""

    def __init__(self, parcels: Sequence[Parcel] = ()) -> None:
        self.parcels = {it.job.number: it for it in parcels}
        self.asked: list[tuple[str, ...]] = []
        self.fails: dict[str, SpoolError] = {}
        self.settled = Settled((), ())
        self.unpacked = Unpacked(0, ())
        self.bundles: list[Ended] = []
        self.dues: list[Due] = []
        self.undefined: set[str] = set()
        self.next = 100
        self.open: Callable[[int], bool] = lambda moment: True

    def _note(self, *words: str) -> None:
        self.asked.append(words)
        if words[0] in self.fails:
            raise self.fails[words[0]]

    def keeping(self, lock: Lock) -> contextlib.AbstractContextManager[None]:
        """No line of it outlives this process."""
        return contextlib.nullcontext()

    def run(self, words: Sequence[str], given: bytes | int = b"") -> Ended:
        """`pack` and `answer`: the next of these bundles."""
        self._note(*words)
        return self.bundles.pop(0) if self.bundles else Ended(3, b"", b"uuspool: spool: store\n")

    def batch(self, word: str, *lines: Line) -> list[bytes] | None:
        """Nothing can be one batch."""
        return None

    def due(self, system: str = "") -> list[Due]:
        self._note("due", system)
        return self.dues

    def is_open(self, system: str, moment: int) -> bool:
        self._note("when", system)
        return self.open(moment)

    def systems(self, system: str = "") -> str:
        return "" if system in self.undefined else f"system {system}\ntime any\n"

    def show(self, number: int) -> Parcel | None:
        return self.parcels.get(number)

    def waiting(self, system: str = "") -> list[Job]:
        return [it.job for it in self.parcels.values() if system in ("", it.job.system)]

    def queued(self, system: str) -> Queued:
        jobs = self.waiting(system)
        return Queued(len(jobs), sum(it.size for it in jobs))

    def settle(self, system: str, bundle: bytes) -> Settled:
        self._note("settle", system)
        return self.settled

    def unpack(self, system: str, onward: Sequence[str], bundle: bytes) -> Unpacked:
        self._note("unpack", system, *onward)
        return self.unpacked

    def queue_again(self, job: Job, key: str, system: str, words: Sequence[str], data: bytes) -> str:
        self._note("queue", key, system, *words)
        self.next += 1
        text = f"{self.next} {system} {job.user} {job.grade} {job.day} {job.hour} {job.size} {job.kind} {' '.join(words)}"
        self.parcels[self.next] = Parcel.read(text.encode() + b"\n" + data)
        return f"job {self.next}"

    def kill(self, job: Job) -> bool:
        self._note("kill", str(job.number))
        return self.parcels.pop(job.number, None) is not None

    def done(self, system: str, number: int | None = None, again: bool = True) -> None:
        self._note("done", system, *([] if number is None else [str(number)]))

    def ask(self, *words: str, given: bytes | int = b"") -> str:
        self._note(*[it for it in words if not it.startswith("--as")])
        return ""

    def ask_once(self, *words: str, given: bytes | int = b"") -> bytes:
        return self.ask(*words, given=given).encode()


def aged(days: int) -> Callable[[str, int], bool]:
    """Looks that saw everything for so many days."""
    return lambda path, least: days >= least


class Log(list):  # type: ignore[type-arg]
    """A log as a list of lines."""

    def note(self, *words: object) -> None:
        self.append(" ".join(map(str, words)))


class Mailer(Closing):
    """Programs that all end with one status."""

    def __init__(self, status: int = 0) -> None:
        super().__init__()
        self.status, self.ran = status, []

    def run(self, program, given=b"", joined=False, watch=None):  # type: ignore[no-untyped-def]
        self.ran.append((list(program.words), given))
        return Ended(self.status, b"", b"")


def site(folder: str, spool: StandIn, **variables: str) -> Site:
    """A site in a folder, whose own name is `mysite`, and whose spool has the word `w1`."""
    for name in "calls", "deliver", "moves", "refused":
        os.makedirs(f"{folder}/{name}", exist_ok=True)
    with open(f"{folder}/spool.db-word", "w", encoding="ascii") as file:
        file.write("w1\n")
    session = Quiet(folder, **variables)
    session.processes = Mailer()
    made = Site(session, Settings("mysite", f"{folder}/uuspool.toml", folder, f"{folder}/spool.db", f"{folder}/log", "UTC0"))
    made.spool, made.log = spool, Log()  # type: ignore[assignment]
    return made
