"""How root's process runs a program as another user. Whatever else this user runs may take an open file from that one: it could
read there what root types later, or write and shorten a file of root's. So the program gets no output of root's: this process
copies what it writes."""
import codecs
import contextlib
import os
import signal
import stat
from collections.abc import Iterable, Iterator, Sequence

from .errors import Stopped
from .files import closing
from .processes import Child, Program, handle_stops, kill_group, wait_until_ready

_BLOCK = 65536
_MOST_OF_A_PIPE = 1 << 20  # bytes, unless root allows more
BEYOND = 128 + signal.SIGPIPE  # the status of what prints too much


class _Output:
    """Where output goes, and how many bytes of it at most. No terminal obeys what another user writes."""

    def __init__(self, handle: int, wake: int, most: int | None) -> None:
        self.handle, self._wake, self._left = handle, wake, most
        self.pipe, self.end = os.pipe2(os.O_CLOEXEC)
        self.fault: OSError | None = None  # why not all of it went there
        self._decoder = codecs.getincrementaldecoder("utf-8")("replace") if os.isatty(handle) else None

    def copy(self) -> bool:
        """Copies what comes next. False at the end, if nobody takes it, or if it is too much."""
        block = os.read(self.pipe, _BLOCK)
        if self._left is not None:
            self._left -= len(block)
            if self.is_beyond():
                return False
        try:
            _write(self.handle, self._shown(block), self._wake)
        except OSError as fault:
            self.fault = fault
        return bool(block) and not self.fault

    def is_beyond(self) -> bool:
        """Whether more came than may."""
        return self._left is not None and self._left < 0

    def _shown(self, block: bytes) -> bytes:
        if not self._decoder:
            return block
        return "".join(it if it.isprintable() or it in "\n\t" else "?" for it in self._decoder.decode(block)).encode()

    def drain(self) -> None:
        """Copies what was written before the end. (A daemon that was left behind may have the pipe, too.)"""
        os.set_blocking(self.pipe, False)
        with contextlib.suppress(BlockingIOError):
            for _ in range(_MOST_OF_A_PIPE // _BLOCK):
                if not self.copy():
                    break


class _Stops:
    """The first stop of this process is one of what it runs, which is another user's and may take no notice. The second ends both."""

    def __init__(self, child: Child) -> None:
        self._child, self._is_first = child, True
        handle_stops(self._stop)

    def _stop(self, number: int, frame: object) -> None:
        if not self._is_first:
            kill_group(self._child.pid)
            self._child.kill()
            raise Stopped
        self._is_first = False
        for send in os.killpg, os.kill:
            with contextlib.suppress(ProcessLookupError):
                send(self._child.pid, number)
                return


def run(program: Program, keeps: Sequence[int] = (), most: int | None = None) -> int:
    """The status of a program. It gets these streams as they are (a file as input is opened anew), no other input, and pipes for its
    output, of each of which so many bytes are copied. If it ended well, but its output couldn't be written, that is an error as if it
    had found that itself."""
    outputs: list[_Output] = []
    streams = [_input() if 0 in keeps else os.open(os.devnull, os.O_RDONLY | os.O_CLOEXEC)]
    with _woken_by_signals() as wake:
        for handle in 1, 2:
            streams.append(handle if handle in keeps else _output_of(handle, outputs, wake, most).end)
        child = program.start((streams[0], streams[1], streams[2]))
        _Stops(child)
        for output in outputs:
            os.close(output.end)
        _copy(child, outputs, wake)
        status = child.wait()
    if any(output.is_beyond() for output in outputs):
        return BEYOND
    for output in outputs:
        if output.fault and not status:
            raise output.fault
    return status


def _input() -> int:
    """This process's input. A file has a place of its own: by root's, root's shell may have its script from there, and would go on
    wherever another user moves that."""
    if not stat.S_ISREG(os.fstat(0).st_mode):
        return 0
    handle = os.open("/proc/self/fd/0", os.O_RDONLY | os.O_CLOEXEC)
    os.lseek(handle, os.lseek(0, 0, os.SEEK_CUR), os.SEEK_SET)
    return handle


def goes_both_ways(handle: int) -> bool:
    """Whether one who should only read a stream could write there, or the other way round."""
    kind = os.fstat(handle).st_mode
    return os.isatty(handle) or stat.S_ISSOCK(kind)


@contextlib.contextmanager
def _woken_by_signals() -> Iterator[int]:
    """A pipe that can be read after each signal, also after one that comes just before this process waits for what it reads. (Python
    would call the function of such a signal only when something comes.)"""
    wake, waker = os.pipe2(os.O_CLOEXEC | os.O_NONBLOCK)
    with closing(wake), closing(waker):
        before = signal.set_wakeup_fd(waker, warn_on_full_buffer=False)
        try:
            yield wake
        finally:
            signal.set_wakeup_fd(before)


def _wait(reads: Iterable[int], writes: Iterable[int], wake: int) -> list[int]:
    """Waits for one of these, or for a signal. Those that can be read."""
    ready = wait_until_ready([*reads, wake], writes)
    if wake in ready:
        os.read(wake, _BLOCK)
    return [it for it in ready if it != wake]


def _write(handle: int, data: bytes, wake: int) -> None:
    """Writes all bytes. (Somebody else who has this open file may have made it one for which nobody waits.)"""
    rest = memoryview(data)
    while rest:
        try:
            rest = rest[os.write(handle, rest) :]
        except BlockingIOError:
            _wait([], [handle], wake)


def _output_of(handle: int, outputs: list[_Output], wake: int, most: int | None) -> _Output:
    """One for both streams if they are the same file, so that their lines keep their order."""
    for output in outputs:
        if os.path.sameopenfile(output.handle, handle):
            return output
    outputs.append(_Output(handle, wake, most))
    return outputs[-1]


def _copy(child: Child, outputs: Sequence[_Output], wake: int) -> None:
    """Copies until the child ends."""
    waiting = {output.pipe: output for output in outputs}
    with closing(os.pidfd_open(child.pid)) as end:
        while end not in (ready := _wait([*waiting, end], [], wake)):
            for handle in ready:
                if not waiting[handle].copy():
                    del waiting[handle]
                    os.close(handle)
    for output in waiting.values():
        output.drain()
