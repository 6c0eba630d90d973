"""What is asked of the spool: lines of the command `uuspool`, and their answers."""
import contextlib
from collections.abc import Iterator, Mapping, Sequence

from .errors import LATER, Failure, SpoolError
from .files import Lock
from .jobs import Job, Parcel
from .processes import Ended, Processes, Program
from .texts import one_line, plain
from .values import NamedTuple

_MORE_TRIES = 5
Line = tuple[Sequence[str], bytes]  # its words, and its input
_DIFFERS = ("Differs", "Stale", "TooLarge")


class Due(NamedTuple):
    """A line of `due`: a system that may be called now, or a job for it."""

    system: str
    grade: str


class Queued(NamedTuple):
    """What waits."""

    jobs: int
    bytes: int

    @staticmethod
    def read(text: str) -> "Queued":
        """The sums over the lines of `queues`."""
        lines = [line.split(" ") for line in text.splitlines()]
        return Queued(sum(int(words[1]) for words in lines), sum(int(words[2]) for words in lines))


class Refused(NamedTuple):
    """A job of ours that a neighbour refuses."""

    number: int
    reason: str


class Settled(NamedTuple):
    """What a bundle settled: which of our jobs are at the neighbour now, and which it refuses."""

    done: tuple[int, ...]
    refused: tuple[Refused, ...]


class Unpacked(NamedTuple):
    """What came of the jobs in a bundle: how many are here, and why the others are refused."""

    jobs: int
    refusals: tuple[str, ...]

    @staticmethod
    def read(output: bytes) -> "Unpacked":
        """What `unpack` printed."""
        lines = [line.split(" ") for line in output.decode().splitlines()]
        refusals = tuple(words[2] for words in lines if words[1:2] == ["refused"])
        return Unpacked(sum(words[1:2] == ["job"] for words in lines), refusals)

    @property
    def unwanted(self) -> int:
        """How many the neighbour has to queue anew or refuse."""
        return sum(reason in _DIFFERS for reason in self.refusals)


def _with(word: str, words: Sequence[str]) -> list[str]:
    """A line of a batch, which knows no word of the spool by itself."""
    return [words[0], *([f"--spool={word}"] if words[0] in ("pack", "answer") else []), *words[1:]]


def answers_in(text: bytes) -> Iterator[Ended]:
    """The answers that a batch printed, up to the first that isn't whole."""
    place = 0
    while end := text.find(b"\n", place) + 1:
        numbers = text[place:end].split()
        if len(numbers) != 3 or not all(map(bytes.isdigit, numbers)):
            return
        status, *sizes = map(int, numbers)
        middle, place = end + sizes[0], end + sum(sizes)
        if place > len(text):
            return
        yield Ended(status, text[end:middle], text[middle:place])


class Spool:
    """The spool of a site."""

    def __init__(self, command: Sequence[str], folder: str, environment: Mapping[str, str], processes: Processes) -> None:
        self._command, self._folder, self._environment, self._processes = command, folder, environment, processes
        self._keeps: tuple[int, ...] = ()

    @contextlib.contextmanager
    def keeping(self, lock: Lock) -> Iterator[None]:
        """Meanwhile each line has this lock, too. A line that waits for its turn goes on if this process is killed, and nobody else gets
        the lock before it has ended."""
        before, self._keeps = self._keeps, (*self._keeps, lock.handle)
        try:
            yield
        finally:
            self._keeps = before

    def run(self, words: Sequence[str], given: bytes | int = b"") -> Ended:
        """Does a line. If no process can be begun now, the spool has failed."""
        try:
            return self._processes.run(Program([*self._command, *words], self._folder, self._environment, keeps=self._keeps), given)
        except OSError as error:
            return Ended(LATER, b"", f"{self._command[0]} cannot be run: {error.strerror}\n".encode())

    def ask_once(self, *words: str, given: bytes | int = b"") -> bytes:
        """The answer to a line."""
        ended = self.run(words, given)
        if ended.status == 0:
            return ended.output
        said = one_line(ended.output + ended.errors) or f"{self._command[0]} ended with status {ended.status}"
        raise SpoolError(ended.status, said)

    def ask(self, *words: str, given: bytes | int = b"") -> str:
        """The answer to a line that may be done twice. If the spool fails, it is asked again for a
        while."""
        for tries_left in range(_MORE_TRIES, -1, -1):
            try:
                return self.ask_once(*words, given=given).decode()
            except SpoolError as error:
                if error.is_final or not tries_left:
                    raise
                self._processes.pause(1)
        raise AssertionError("the last try raises")

    def batch(self, word: str, *lines: Line) -> list[bytes] | None:
        """The answers to lines that one process does, for a spool of this word. None if one fails: done alone, it says more.
        (The log of the site has nothing about them, so they are questions, or have nothing to say there.)"""
        requests = b"".join(b"%d %s\n%s" % (len(given), " ".join(_with(word, words)).encode(), given) for words, given in lines)
        answers = list(answers_in(self.run(["batch"], requests).output))
        return [it.output for it in answers] if [it.status for it in answers] == [0] * len(lines) else None

    def due(self, system: str = "") -> list[Due]:
        """The systems that may be called now, or the jobs for one that may go now; the lowest grade comes
        last."""
        lines = self.ask("due", *([f"-s{system}"] if system else [])).splitlines()
        return [Due(*line.split(" ")[:2]) for line in lines]

    def open_now(self) -> list[str]:
        """The systems that may be called now for some grade."""
        lines = [line.split(" ") for line in self.ask("when", "-a").splitlines()]
        return [words[0] for words in lines if words[3] == "0"]

    def is_open(self, system: str, moment: int) -> bool:
        """Whether a system may be called for some grade at a second."""
        lines = self.ask(f"--at={moment}", "when", "-a", f"-s{system}").splitlines()
        return any(line.split(" ")[3] == "0" for line in lines)

    def waiting(self, system: str = "") -> list[Job]:
        """The jobs that wait, or those for a system."""
        return [Job.read(line) for line in self.ask("list", *([f"-s{system}"] if system else [])).splitlines()]

    def queued(self, system: str) -> Queued:
        """How much waits for a system."""
        return Queued.read(self.ask("queues", f"-s{system}"))

    def systems(self, system: str = "") -> str:
        """The definitions of all systems, or of one."""
        return self.ask("systems", *([f"-s{system}"] if system else []))

    def show(self, number: int) -> Parcel | None:
        """A job with its bytes, if it is there."""
        ended = self.run(["show", str(number)])
        if ended.status == 1:
            return None
        if ended.status:
            raise Failure(LATER, f"job {number} cannot be shown: {plain(ended.errors)}")
        try:
            return Parcel.read(ended.output)
        except ValueError as error:
            raise Failure(LATER, f"job {number} cannot be read from the spool: {error}") from None

    def settle(self, system: str, bundle: bytes) -> Settled:
        """Removes our jobs that a bundle says are at the neighbour."""
        done: list[int] = []
        refused: list[Refused] = []
        for line in self.ask_once("settle", "--", system, given=bundle).decode().splitlines():
            words = line.split(" ")
            if words[1:2] == ["refused"]:
                refused.append(Refused(int(words[2]), words[3]))
            else:
                done += map(int, words[1:])
        return Settled(tuple(done), tuple(refused))

    def unpack(self, system: str, onward: Sequence[str], bundle: bytes) -> Unpacked:
        """Queues the jobs of a bundle. (A refused job is no fault of the line.)"""
        ended = self.run(["unpack", "--", system, *onward], bundle)
        if ended.status not in (0, 1):
            raise SpoolError(ended.status, one_line(ended.output + ended.errors))
        return Unpacked.read(ended.output)

    def queue_again(self, job: Job, key: str, system: str, words: Sequence[str], data: bytes) -> str:
        """Queues a job anew for a system, once under this key."""
        line = [f"--as={job.user}", job.kind, f"-g{job.grade}", f"--once={key}", "--", system, *words]
        return self.ask(*line, given=data).strip()

    def kill(self, job: Job) -> bool:
        """Removes a job. Whether it was there. If the spool fails, it is asked again, and then that isn't known for certain."""
        line = f"--as={job.user}", "kill", "--", str(job.number)
        try:
            self.ask_once(*line)
            return True
        except SpoolError as error:
            if str(error) == "refused NoJob":
                return False
            if error.is_final:
                raise
        try:
            self.ask(*line)
        except SpoolError as error:
            if str(error) != "refused NoJob":
                raise
        return True  # (the first time, if not now)

    def done(self, system: str, number: int | None = None, again: bool = True) -> None:
        """Notes that a call was made, or that a job was delivered, which may be gone. If the spool fails, it is asked again,
        unless the caller does so."""
        line = ["done", "--", system, *([] if number is None else [str(number)])]
        try:
            if again:
                self.ask(*line)
            else:
                self.ask_once(*line)
        except SpoolError as error:
            if number is None or str(error) != "refused NoJob":
                raise
