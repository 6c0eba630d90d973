"""Programs that a command runs. A stop of the command ends those that may take long."""
import contextlib
import os
import select
import signal
import sys
import time
from collections.abc import Callable, Collection, Iterable, Iterator, Mapping, Sequence

from .errors import LATER, Failure, Stopped
from .files import closing, memory_file, read_bytes
from .values import NamedTuple

_GRACE = 10  # seconds from TERM to KILL
_MARGIN = 5  # seconds after which a program with a limit is ended, whatever happened to `timeout`
_BLOCK = 65536
_STOPS = (signal.SIGHUP, signal.SIGINT, signal.SIGTERM)
_NOT_FOUND, _NOT_EXECUTABLE = 127, 126
_MOST_HANDLES = 1 << 20  # of a process, unless root raises fs.nr_open. Whoever runs this may have left some open
_ADOPTS = 36  # for the kernel: processes below this one whose parents end become its children
_LONGEST = 86400  # seconds that one wait takes
_LOOK = 0.5  # seconds after which whoever watches a program looks again

NONE_BEGINS = "no process can begin now, as at a limit (TasksMax, ulimit -u)"

Streams = tuple[int, int, int]  # the open files that are a program's input, output and errors
# Whoever watches a program: how many bytes of its input it has read, and what it has written so far.
Watch = Callable[[int, bytearray], None]


class Ended(NamedTuple):
    """How a program ended: its status as a shell has it, 128 + N after signal N, what it wrote, whether
    that was more than is kept, and how many bytes of its input it read."""

    status: int
    output: bytes
    errors: bytes
    wrote_too_much: bool = False
    read: int = 0


class Child:
    """A process that runs beside this one. It begins with a function, which returns the status with which it ends. One that
    is shielded, and what it becomes, isn't ended by a stop of all processes."""

    def __init__(self, work: Callable[[], int], shielded: bool = False) -> None:
        # (A stop of the child mustn't be taken for one of this process, whose answer to it the child has at first.)
        before = signal.pthread_sigmask(signal.SIG_BLOCK, _STOPS)
        try:
            self.pid = os.fork()
            if self.pid == 0:
                _end_with(work, {*before, *_STOPS} if shielded else before)
        finally:
            signal.pthread_sigmask(signal.SIG_SETMASK, before)

    def wait(self) -> int:
        """Its status, once it has ended: 128 + N after signal N."""
        returned = os.waitstatus_to_exitcode(os.waitpid(self.pid, 0)[1])
        return returned if returned >= 0 else 128 - returned

    def terminate(self) -> None:
        """Asks it to end."""
        with contextlib.suppress(ProcessLookupError):
            os.kill(self.pid, signal.SIGTERM)

    def kill(self) -> None:
        """Ends it."""
        with contextlib.suppress(ProcessLookupError):
            os.kill(self.pid, signal.SIGKILL)


def _end_soon(child: Child, ends: float) -> float:
    """Asks a program with a limit to end. The moment at which it is ended otherwise."""
    child.terminate()
    return min(ends, time.monotonic() + _GRACE + _MARGIN)


def kill_group(number: int) -> None:
    """Ends the processes of a group, if there are any."""
    with contextlib.suppress(ProcessLookupError, PermissionError):
        os.killpg(number, signal.SIGKILL)


def _children() -> set[int]:
    """The processes whose parent this is. (The kernel lists them for their parent, also if /proc hides some from this user, as
    below ProtectProc=invisible. One without such lists, by CONFIG_PROC_CHILDREN, is asked for each process that /proc shows.)"""
    try:
        os.waitid(os.P_ALL, 0, os.WEXITED | os.WNOHANG | os.WNOWAIT)
    except ChildProcessError:
        return set()  # (there are none)
    threads = [read_bytes(f"/proc/self/task/{name}/children") for name in os.listdir("/proc/self/task")]
    if any(its is not None for its in threads):
        return {int(word) for its in threads for word in (its or b"").split()}
    stats = ((int(name), read_bytes(f"/proc/{name}/stat") or b"") for name in os.listdir("/proc") if name.isdigit())
    return {number for number, text in stats if text.rpartition(b") ")[2].split()[1:2] == [b"%d" % os.getpid()]}


def _adopting() -> set[int]:
    """From now on whatever this process begins stays below it, also in sessions of their own. The children that it has now."""
    from . import kernel  # (which only deliveries need)

    kernel.control(_ADOPTS, 1)
    return _children()


def _end_children(but: Collection[int]) -> None:
    """Ends the children of this process, and those that become so when their parents end. (What became another user's can't be
    ended, and who forks without end may be faster.)"""
    ends = time.monotonic() + _MARGIN
    while (left := _children().difference(but)) and time.monotonic() < ends:
        for number in left:
            with contextlib.suppress(ProcessLookupError, PermissionError, ChildProcessError):
                os.kill(number, signal.SIGKILL)
                os.waitpid(number, os.WNOHANG)  # (Nobody else gets its number before.)
        time.sleep(0.01)


def _end_with(work: Callable[[], int], mask: Iterable[int]) -> None:
    status = 1
    try:
        signal.set_wakeup_fd(-1)
        handle_stops(signal.SIG_DFL)
        signal.pthread_sigmask(signal.SIG_SETMASK, mask)
        status = work()
    except BaseException:
        sys.excepthook(*sys.exc_info())
    finally:
        os._exit(status)


def handle_stops(handler: "Callable[[int, object], None] | signal.Handlers") -> None:
    """What HUP, INT and TERM do from now on. One that was ignored when this began, as by nohup, stays so."""
    for number in _STOPS:
        if signal.getsignal(number) != signal.SIG_IGN:
            signal.signal(number, handler)


def named(name: str) -> None:
    """`ps` shows this process by a name."""
    with contextlib.suppress(OSError), open("/proc/self/comm", "w", encoding="ascii") as file:
        file.write(name)


def execute(
    words: Sequence[str], folder: str, environment: Mapping[str, str], streams: Streams | None = None, keeps: Collection[int] = (), first: Callable[[], None] | None = None
) -> int:
    """This process becomes a program, with these streams and files. Before that it does something, as becoming another user's, who may stop it
    then, so it has no other files by then. Otherwise it says why not, and the answer is a status as a shell has it. (subprocess and
    posix_spawn aren't used: the one takes long to load, and the other enters no folder.)"""
    try:
        for at, handle in enumerate(streams or ()):
            # (Those below 3 were open before this began, and the handles of a call are above.)
            os.dup2(handle, at)
        _close_all_but(keeps)
        if first:
            first()
        # (Python ignores SIGXFSZ, too, which stays so: a limit of a file's size ends no program that has queued a job.)
        signal.signal(signal.SIGPIPE, signal.SIG_DFL)
        if folder:
            os.chdir(folder)
        os.execvpe(words[0], list(words), dict(environment))
    except OSError as error:
        os.write(2, os.fsencode(f"{words[0]}: {error.strerror}\n"))
        return _NOT_EXECUTABLE if isinstance(error, PermissionError) else _NOT_FOUND


def _close_all_but(kept: Collection[int]) -> None:
    """Closes all files but the streams and these, which the program has, too."""
    first = 3
    for handle in sorted(kept):
        os.closerange(first, handle)
        os.set_inheritable(handle, True)
        first = handle + 1
    os.closerange(first, _MOST_HANDLES)


class Program(NamedTuple):
    """What is run: its words, its folder (nothing for the present one, even if this user may not enter it), its
    environment, and for how many seconds at most (0 for ever). What it starts ends with it then. So many bytes
    of what it writes are kept, and one more; it may also be ended when it writes more."""

    words: Sequence[str]
    folder: str
    environment: Mapping[str, str]
    limit: float | None = None
    most: int = 1 << 30
    ends_beyond: bool = False
    first: Callable[[], None] | None = None  # what the new process does before it becomes the program, with its streams and no other files
    leaves_none: bool = False  # unless it ends well, all that it began ends with it, also in sessions of its own
    leaves_terminal: bool = False  # it has a session of its own, and so no terminal, as each program with a limit
    keeps: Collection[int] = ()  # open files that it has besides its streams, such as that of a lock

    def line(self) -> list[str]:
        """The words that are executed. `timeout` ends the program even if this process was killed."""
        if self.limit is None:
            return list(self.words)
        return ["timeout", "-k", str(_GRACE), f"{self.limit:.3f}", *self.words]

    def start(self, streams: Streams | None = None, shielded: bool = False) -> Child:
        """Begins it, with these streams or those of this process."""
        return Child(lambda: self._become(streams), shielded)

    def _become(self, streams: Streams | None) -> int:
        # (At a terminal it could type what whoever typed this command then runs.)
        if self.leaves_terminal or self.limit is not None:
            os.setsid()
        return execute(self.line(), self.folder, self.environment, streams, self.keeps, self.first)


def wait_until_ready(reads: Iterable[int], writes: Iterable[int] = (), seconds: float | None = None) -> list[int]:
    """Waits until some of these can be read, or written, or so long, but a day at most. (Whatever their numbers are: select takes
    none above 1,023.)"""
    waiting = select.poll()
    for handles, event in (reads, select.POLLIN), (writes, select.POLLOUT):
        for handle in handles:
            waiting.register(handle, event)
    milliseconds = None if seconds is None else int(min(seconds, _LONGEST) * 1000) + 1
    return [handle for handle, _ in waiting.poll(milliseconds)]


class _Pipe:
    """An output of a program that is read, up to so many bytes."""

    def __init__(self, most: int) -> None:
        self.most, self.bytes = most, bytearray()
        self.handle, self.end = os.pipe2(os.O_CLOEXEC)
        os.set_blocking(self.handle, False)

    def begin(self) -> None:
        """From now on the program alone has the end into which it writes."""
        os.close(self.end)
        self.end = -1

    def close(self) -> None:
        """Reads no more."""
        for handle in self.handle, self.end:
            if handle >= 0:
                os.close(handle)

    def read(self) -> bool:
        """Reads what is there. False at the end."""
        try:
            block = os.read(self.handle, _BLOCK)
        except BlockingIOError:
            return True
        self.bytes += block[: self.most + 1 - len(self.bytes)]
        return bool(block)

    def is_full(self) -> bool:
        """Whether more was written than is kept."""
        return len(self.bytes) > self.most

    def drain(self) -> None:
        """Reads what the program wrote before it ended. A daemon that it left behind may have this
        pipe, too, so its end isn't waited for."""
        before = -1
        while before < len(self.bytes) and not self.is_full():
            before = len(self.bytes)
            self.read()


class Processes:
    """Runs programs for a command."""

    def __init__(self) -> None:
        self._stopped = self._finishes = False
        self._wake, self._waker = os.pipe2(os.O_CLOEXEC | os.O_NONBLOCK)

    def catch_stops(self) -> None:
        """From now on HUP, INT and TERM end what runs, and then raise Stopped."""
        handle_stops(self._stop)
        signal.set_wakeup_fd(self._waker, warn_on_full_buffer=False)

    def begin_as_child(self) -> None:
        """In a process that was forked: its signals don't wake the first process."""
        self._wake, self._waker = os.pipe2(os.O_CLOEXEC | os.O_NONBLOCK)
        self.catch_stops()

    def _stop(self, number: int, frame: object) -> None:
        self._stopped = True

    def check(self) -> None:
        """Raises Stopped after a signal."""
        if self._stopped and not self._finishes:
            raise Stopped

    @contextlib.contextmanager
    def finishing(self) -> Iterator[None]:
        """What is begun in this is finished, also if a stop goes to all processes, and then a stop counts. (A program with a
        limit is ended even so.)"""
        self._finishes = True
        try:
            yield
        finally:
            self._finishes = False
        self.check()

    def wait_for(self, handles: Sequence[int], seconds: float | None = None) -> list[int]:
        """Waits until some of these can be read, or so long, unless this is stopped."""
        ready = wait_until_ready([*handles, self._wake], seconds=seconds)
        self.check()
        if self._wake in ready:
            os.read(self._wake, _BLOCK)  # (a signal of a child that was just forked)
        return [it for it in ready if it != self._wake]

    def pause(self, seconds: float) -> None:
        """Waits, unless this is stopped."""
        self.wait_for([], seconds)

    def run(self, program: Program, given: bytes | int = b"", joined: bool = False, watch: Watch | None = None) -> Ended:
        """Runs a program on these bytes, or on an open file from its beginning, and reads what it writes.
        With `joined` its errors are in its output. That it ended well counts, also if this is stopped meanwhile."""
        if isinstance(given, bytes):
            with memory_file(given) as handle:
                return self.run(program, handle, joined, watch)
        self.check()
        os.lseek(given, 0, os.SEEK_SET)
        pipes = [_Pipe(program.most) for _ in range(1 if joined else 2)]
        others = _adopting() if program.leaves_none else set()
        try:
            child = program.start((given, pipes[0].end, pipes[-1].end), self._finishes and program.limit is None)
            for pipe in pipes:
                pipe.begin()
            # (The program has this open file, and not one of its own, so what it reads moves the place in it.)
            too_much = self._read(child, program, pipes, given, watch)
            errors = b"" if joined else bytes(pipes[1].bytes)
            ended = Ended(child.wait(), bytes(pipes[0].bytes), errors, too_much, os.lseek(given, 0, os.SEEK_CUR))
        finally:
            for pipe in pipes:
                pipe.close()
        if ended.status and program.leaves_none:
            _end_children(others)
        if ended.status:
            self.check()
        return ended

    def _read(self, child: Child, program: Program, pipes: Sequence[_Pipe], given: int, watch: Watch | None) -> bool:
        """Reads until the program ends. Whether it wrote too much."""
        waiting = {pipe.handle: pipe for pipe in pipes}
        too_much = stopped = False
        # (The program may stop the `timeout` that should end it.)
        ends = time.monotonic() + program.limit + _GRACE + _MARGIN if program.limit else float("inf")
        with closing(os.pidfd_open(child.pid)) as end:
            while True:
                if self._stopped and not stopped:
                    stopped = True
                    if program.limit is not None:
                        ends = _end_soon(child, ends)
                wake = [] if stopped else [self._wake]
                left = max(0, ends - time.monotonic()) if ends < float("inf") else None
                ready = wait_until_ready([*waiting, end, *wake], seconds=min(_LOOK, left or _LOOK) if watch else left)
                if end in ready:
                    break
                if watch:
                    watch(os.lseek(given, 0, os.SEEK_CUR), pipes[0].bytes)
                if time.monotonic() >= ends:
                    child.kill()
                    ends = float("inf")
                for handle in [it for it in ready if it in waiting]:
                    if not waiting[handle].read():
                        del waiting[handle]
                if any(pipe.is_full() for pipe in pipes) and not too_much:
                    too_much = True
                    if program.ends_beyond:
                        ends = _end_soon(child, ends)
        for pipe in waiting.values():
            pipe.drain()
        return too_much or any(pipe.is_full() for pipe in pipes)

    def read_input(self, handle: int, most: int, seconds: float, idle: float = float("inf")) -> bytes | None:
        """Reads an input to its end, or one byte more than `most`. None if that takes too long, or nothing comes
        for so many seconds."""
        ends, text = time.monotonic() + seconds, bytearray()
        while len(text) <= most:
            if not self.wait_for([handle], min(idle, max(0, ends - time.monotonic()))):
                return None
            block = os.read(handle, min(_BLOCK, most + 1 - len(text)))
            if not block:
                break
            text += block
        return bytes(text)

    def write_output(self, handle: int, data: bytes, seconds: float) -> None:
        """Writes an output, which somebody may read slowly or no more. Failure if that takes more than so many
        seconds. (A pipe that is ready takes so many bytes at once.)"""
        ends, rest = time.monotonic() + seconds, memoryview(data)
        while rest:
            if (left := ends - time.monotonic()) <= 0:
                raise Failure(LATER, f"nobody took {len(rest)} of {len(data)} bytes within {seconds:.0f} seconds")
            ready = wait_until_ready([self._wake], [handle], left)
            self.check()
            if handle in ready:
                rest = rest[os.write(handle, rest[: select.PIPE_BUF]) :]


class Children:
    """Processes that run side by side, so many at a time. If this is left by an error or a stop, they are ended."""

    def __init__(self, processes: Processes, at_once: int) -> None:
        self._processes, self._at_once = processes, at_once
        self._running: dict[int, tuple[Child, int]] = {}
        self.ended: list[tuple[int, int]] = []  # the number of each, and its status

    def __enter__(self) -> "Children":
        return self

    def __exit__(self, kind: type[BaseException] | None, *error: object) -> None:
        if kind:
            self._end_all()

    def start(self, begin: Callable[[], Child], number: int = 0) -> bool:
        """Begins a process, once there is a place for it. False if none can begin now, as at a limit: the others go on."""
        self.wait(left=self._at_once - 1)
        try:
            child = begin()
        except OSError as error:
            import errno  # (which few starts need)

            if error.errno not in (errno.EAGAIN, errno.ENOMEM):
                raise
            return False
        self._running[os.pidfd_open(child.pid)] = child, number
        return True

    def has_place(self, seconds: float) -> bool:
        """Waits for a place, so long at most."""
        self.wait(seconds, self._at_once - 1)
        return len(self._running) < self._at_once

    def wait(self, seconds: float = float("inf"), left: int = 0) -> None:
        """Waits until so many are left at most, or so long."""
        ends = time.monotonic() + seconds
        while len(self._running) > left and (rest := ends - time.monotonic()) > 0:
            self._wait_for_one(rest if rest < float("inf") else None)

    def reap(self, seconds: float) -> None:
        """Waits so long, and takes note of what ends meanwhile."""
        ends = time.monotonic() + seconds
        while (left := ends - time.monotonic()) > 0:
            self._wait_for_one(left)

    def _wait_for_one(self, seconds: float | None) -> None:
        self._note_ended(self._processes.wait_for([*self._running], seconds))

    def _note_ended(self, handles: Sequence[int]) -> None:
        for handle in handles:
            child, number = self._running.pop(handle)
            self.ended.append((number, child.wait()))
            os.close(handle)

    def _end_all(self) -> None:
        """Each child ends what it runs, too. (One that just began may not take note of the first signal.)"""
        while self._running:
            for child, _ in self._running.values():
                child.terminate()
            self._note_ended(wait_until_ready([*self._running], seconds=1))
