"""What the log says of the jobs of a copy since it was made: which are gone, which were queued anew, and the greatest number that
was given. The file is read, and those that logrotate made of it, oldest first.

`uuspool-backup` writes a line for each copy, and `uuspool-restore` for each that it puts back: the mark of the copy, and the word of its
spool. They say which lines count. No clock does, and no line about another spool. If the log has no line of a copy, none
counts, because a job that comes twice is better than none.

A restoration may be killed just behind the step that puts the copy back. So it writes a line before that, too, which counts if the
spool has the word of that time."""
import contextlib
import os
import re
import zlib
from collections.abc import Callable, Collection, Iterable, Iterator, KeysView, Mapping, Sequence
from types import MappingProxyType

from . import turn
from .session import acting_as
from .values import Any, NamedTuple

_MOST = 1 << 28  # bytes of a file, from its end
_MOST_OF_A_LINE = 1 << 20  # of a longer one nothing counts: it was refused
_MOST_FILES = 100  # the newest
_MOST_ANEW = 1 << 20  # jobs that stand for others
_FOLDER = os.O_RDONLY | os.O_DIRECTORY | os.O_CLOEXEC
_ENDS = re.compile(r"(?:\.([0-9]{1,4})|-([0-9]{8}(?:-[0-9]+)?))?(\.gz)?\Z")  # of a file that logrotate made
COPIED, RESTORING, RESTORED = "copied", "restoring", "restored"  # the lines about copies
_COPIES = (COPIED.encode(), RESTORING.encode(), RESTORED.encode())
_OTHERS = (b"init", b"renumber")  # the lines after which another spool may be there
_GOES = (b"settle", b"done", b"kill")  # the lines that remove a job
_QUEUES = (b"send", b"exec", b"request")
_ANEW = re.compile(rb"-g[!-~] --once=[!-~]+!([1-9][0-9]{0,9})!(again|onward|request) -- ([!-~]+(?: [!-~]+)*)\n?\Z")  # what stands for the job of this number
_PIECE = re.compile(  # of what was handed on: its system, file, the size of that, the length of a piece, mark, place, and what is done with the whole
    rb"-g[!-~] (?:--once=[!-~]+!(?:onward|request) )?-- ([!-~]+) "
    rb"uuspool-piece ([0-9a-f]+\.([0-9]{1,18})\.([1-9][0-9]{0,17})\.([0-9A-Za-z:-]+)) ([0-9]{1,18}) (.*)"
)
_OF_JOB = re.compile(rb"([1-9][0-9]{0,9})-[0-9]{4}-[0-9][0-9]-[0-9][0-9]-[0-9:]+\Z")  # the mark of what a job of this number handed on


class Line(NamedTuple):
    """A line about a job that is gone."""

    moment: str
    how: str


class Anew(NamedTuple):
    """A job that stands for another one, which was moved or queued anew, or whose delivery handed it on."""

    number: int
    line: tuple[str, ...]  # that queues it anew, or nothing if another delivery does that


class Said(NamedTuple):
    """What the log says of jobs since a copy was made, or put back for the first time."""

    gone: dict[int, Line]
    lost: dict[int, Anew]  # those of them that wait again, because others stood for them, none of which is done: the last one
    others: set[int]  # jobs that stood for them
    delivered: set[int]  # jobs that were delivered here, also the pieces with which files were
    handed_on: set[int]  # those of them that others stood for
    greatest: int  # number of a job of any spool, or 0
    has_mark: bool  # whether it has a line of the copy. Otherwise it says nothing of its jobs
    faults: list[str]  # what couldn't be read, and why

    def without(self, gone: Collection[int] = (), lost: Collection[int] = ()) -> "Said":
        """The same, but that these jobs aren't gone, and those not lost."""
        its = {number: line for number, line in self.gone.items() if number not in gone}
        return self._replace(gone=its, lost={number: anew for number, anew in self.lost.items() if number not in lost})


_NONE: Mapping[int, str] = MappingProxyType({})


def read(
    path: str, owner: str, word: str, mark: str, jobs: Iterable[int], times: Iterable[str] = (), marks: Mapping[int, str] = _NONE, users: Mapping[int, str] = _NONE
) -> Said:
    """What the log at a path says of jobs of the spool with this word since a copy of it was made or put back, whose lines have
    this mark. It was put back at these times. Some of the jobs brought pieces of files here, which are handed on with these marks. Pieces of other
    users than these, whose the jobs are, count for none. For root the owner of the spool opens the files, who may put links there."""
    faults: list[str] = []
    reading = _Reading(word, mark, frozenset(jobs), frozenset(it.encode() for it in times), marks, users)
    for words in _lines(path, owner, faults):
        reading.take(words)
    return reading.said(faults)


class _Reading:
    """What the lines so far say. A line is about the spool if the last copy that was made or put back before it is the spool's, and
    no other spool was made since. Those before the first line of the copy only say which jobs stand for each other, and what became of the
    pieces in which jobs were handed on. Only jobs of the copy are followed, and those that stand for them or for the same ones, which have
    greater numbers. A job that brought a piece of a file is gone once the piece is kept, so that says nothing of the file."""

    def __init__(self, word: str, mark: str, jobs: frozenset[int], times: frozenset[bytes], marks: Mapping[int, str], users: Mapping[int, str]) -> None:
        self._users = {number: user.encode() for number, user in users.items()}
        self._word, self._mark, self._jobs, self._followed, self._times = word.encode(), mark.encode(), jobs, set(jobs), times
        self._kept = marks.keys()
        self._parts = _Parts({its.encode(): number for number, its in sorted(marks.items(), reverse=True)})
        self._gone: dict[int, Line] = {}
        self._done: set[int] = set()  # those for which none stood when they went
        self._anew: dict[int, Anew] = {}  # what stood for each, the last time
        self._stands_for: dict[int, int] = {}  # for which one each stood
        self._open: set[tuple[int, bytes]] = set()  # those for which one stands, and that wait, too, because they are removed so behind that
        self._open_in: dict[bytes, set[tuple[int, bytes]]] = {}  # in each copy
        self._delivered: set[int] = set()
        self._greatest = 0
        self._has_mark = self._is_its = False
        self._never_given = 0  # the first number of a restoration that was begun just now and put nothing back

    def take(self, words: list[bytes]) -> None:
        """Takes the next line."""
        never_given, self._never_given = self._never_given, 0
        if words[5] in _COPIES:
            self._take_copy(words)
        elif never_given and _stands_for(words) and int(words[4]) >= never_given:
            self._never_given = never_given
        elif words[5] == b"done" and words[6] in _OTHERS:
            self._is_its = False
        elif words[4].isdigit():
            number = int(words[4])
            self._greatest = max(self._greatest, number)
            if self._is_its:
                self._take_job(number, words)

    def _take_copy(self, words: list[bytes]) -> None:
        its = words[7].split() if len(words) > 7 else []
        if words[5] == RESTORING.encode() and not self._times.intersection(its[1:2]):
            # (It was never put back then, and gave no numbers.)
            self._never_given = int(its[2]) if len(its) > 2 and its[2].isdigit() else 0
            return
        self._is_its, is_marked = its[:1] == [self._word], words[6] == self._mark
        if self._is_its and is_marked and not self._has_mark:
            self._has_mark, self._followed = True, set(map(self._first, self._jobs))
            self._done -= self._jobs
            self._gone = {number: line for number, line in self._gone.items() if number not in self._jobs}
        if self._is_its and words[5] == COPIED.encode():
            self._open_in[words[6]] = set(self._open)
        elif self._is_its:
            self._open = set(self._open_in.get(words[6], ()))

    def _take_job(self, number: int, words: list[bytes]) -> None:
        if of := self._parts.take(number, words, self._may_be_part):
            self._open.add((of, b"done"))
            if number in self._parts.numbers:
                self._users.setdefault(number, words[3])
        elif found := _stands_for(words):
            of, anew = found
            is_known = len(self._stands_for) < _MOST_ANEW  # (Otherwise the other one waits.)
            if self._is_followed(of):
                self._anew |= {of: anew} if is_known else {}
            self._stands_for |= {number: of} if is_known else {}
            self._open |= {(of, how) for how in _GOES}
        elif words[5] == b"delivered":
            self._delivered |= {number} if self._is_followed(number) else set()
        elif words[6] in _GOES:
            if self._is_followed(number):
                self._gone[number] = Line(b" ".join(words[:2]).decode(errors="replace"), words[6].decode())
                is_open = (number, words[6]) in self._open or (words[6] == b"done" and number in self._kept)
                self._done |= set() if is_open else {number}
            self._open -= {(number, how) for how in _GOES}

    def _may_be_part(self, number: int, user: bytes) -> bool:
        """Whether a piece of this user may be one in which the job was handed on. (A piece that is refused, and then queued again by hand, names
        any job, also one that is a piece itself.)"""
        users = {self._users.get(it, user) for it in (number, self._first(number))}
        return users == {user} and (number in self._jobs or self._is_followed(number))

    def _is_followed(self, number: int) -> bool:
        first = self._first(number)
        return first in self._parts.numbers or (self._has_mark and first in self._followed)

    def said(self, faults: list[str]) -> Said:
        """What all lines say. Jobs that stand for each other are one thing. If one of them is done, all are. Otherwise one waits: one that
        isn't gone, or else the last one that the copy has. A job is done, too, if all pieces in which it was handed on are done, or wait
        in the copy."""
        if not self._has_mark:
            return Said({}, {}, set(), set(), set(), self._greatest, False, faults)
        done = {self._first(it): self._gone[it] for it in self._done}
        waiting = {self._first(it) for it in self._jobs} - done.keys()  # (also what is lost, because it is queued anew)

        def end(number: int) -> str:
            its = done.get(self._first(number))
            return its.how if its else "waits" * (self._first(number) in waiting)

        for number in sorted(self._parts.jobs, reverse=True):
            if self._parts.are_done(number, end):
                done.setdefault(self._first(number), self._gone.get(number, Line("", "done")))
        kept: dict[int, int] = {}  # of the jobs of the copy that stand for each other, the one that waits
        for number in sorted(self._jobs, key=lambda it: (it not in self._gone, it)):
            kept[self._first(number)] = number
        gone = {it: done.get(self._first(it)) or self._gone[it] for it in self._jobs if it in self._gone or self._first(it) in done}
        lost = {it: self._last(it, end) for it in gone if self._first(it) not in done and kept[self._first(it)] == it}
        handed_on = self._jobs & (self._anew.keys() | self._parts.jobs)
        return Said(gone, lost, self._others(), self._delivered, set(handed_on), self._greatest, self._has_mark, faults)

    def _others(self) -> set[int]:
        """The jobs that stood for those of the copy, and aren't there."""
        parts = {number for of in self._parts.jobs if self._is_followed(of) for number in self._parts.of(of)}
        return ({it for it in self._stands_for if self._is_followed(it)} | parts) - self._jobs

    def _first(self, number: int) -> int:
        """The first of the jobs that stand for each other."""
        while number in self._stands_for:
            number = self._stands_for[number]
        return number

    def _last(self, number: int, end: Callable[[int], str]) -> Anew:
        """The last one, with the line of the last one that was queued anew before one was handed on."""
        line: tuple[str, ...] = ()
        is_handed_on = False
        while number in self._anew:
            number, its = self._anew[number]
            is_handed_on = is_handed_on or not its
            line = line if is_handed_on else its
        left = [it for it in self._parts.of(number) if not end(it)]
        return Anew(max((self._last(it, end).number for it in left), default=number), line)


class _Whole(NamedTuple):
    """What was handed on under one name: how many pieces it has, and the jobs that brought each, oldest first, by their places."""

    total: int
    places: dict[int, list[int]]


class _Parts:
    """The pieces in which jobs of neighbours were handed on, as far as they were queued, once or again under the same name. The mark of
    a piece has the number of the job, or is that of a file that came in pieces, of which this knows a job."""

    def __init__(self, files: Mapping[bytes, int]) -> None:
        self._files = files
        self._wholes: dict[int, dict[bytes, _Whole]] = {}
        self.numbers: set[int] = set()

    @property
    def jobs(self) -> KeysView[int]:
        """The jobs that were handed on."""
        return self._wholes.keys()

    def take(self, number: int, words: list[bytes], is_wanted: Callable[[int, bytes], bool]) -> int:
        """Takes a line. The number of the job that was handed on, if it is about a piece of one that is wanted, or 0."""
        found = _PIECE.match(words[7]) if words[6] == b"exec" and b"!" in words[3] and len(words) > 7 else None
        if not found:
            return 0
        its = _OF_JOB.match(found[5])
        of, size, length, at = int(its[1]) if its else self._files.get(found[5], 0), int(found[3]), int(found[4]), int(found[6])
        if not (0 < of < number and is_wanted(of, words[3])):
            return 0
        name = b" ".join((words[3], found[1], found[2], found[7]))
        whole = self._wholes.setdefault(of, {}).setdefault(name, _Whole(max(1, -(-size // length)), {}))
        if len(self.numbers) < _MOST_ANEW:  # (Otherwise the job waits.)
            whole.places.setdefault(at, []).append(number)
            self.numbers.add(number)
        return of

    def of(self, number: int) -> list[int]:
        """The pieces in which a job was handed on."""
        return [it for whole in self._wholes.get(number, {}).values() for its in whole.places.values() for it in its]

    def are_done(self, number: int, end: Callable[[int], str]) -> bool:
        """Whether all pieces are done in which a job was handed on, also the last one, which may never have been queued."""
        return any(len(it.places) == it.total and all(_is_done(its, end) for its in it.places.values()) for it in self._wholes[number].values())


def _is_done(jobs: Sequence[int], end: Callable[[int], str]) -> bool:
    """Whether a piece is done, which these jobs brought one after another: it came with one of them, or the last one was killed."""
    ends = [end(it) for it in jobs]
    return ends[-1] != "" or any(it not in ("", "kill") for it in ends)


def _stands_for(words: list[bytes]) -> tuple[int, Anew] | None:
    """For which job one stands that was queued. (Numbers grow, so no job stands for itself.)"""
    found = _ANEW.match(words[7]) if words[6] in _QUEUES and len(words) > 7 else None
    if not found or int(found[1]) >= int(words[4]):
        return None
    options, _, rest = words[7].partition(b" -- ")
    line = (b"--as=" + words[3], words[6], *options.split(), b"--", *rest.split()) if found[2] == b"again" else ()
    return int(found[1]), Anew(int(words[4]), tuple(it.decode(errors="replace") for it in line))


def _lines(path: str, owner: str, faults: list[str]) -> Iterator[list[bytes]]:
    """The words of each line that says that something was done, a job delivered, or a copy made or put back: two of the moment, the
    system, the user, the number, how, and what."""
    for file in _opened(path, owner, faults):
        with file:
            try:
                while line := file.readline():
                    words = line.split(maxsplit=7)
                    if len(words) > 6 and words[5] in (b"done", b"delivered", *_COPIES) and len(words[4]) < 20:
                        yield words
            except (OSError, EOFError, ValueError, zlib.error) as error:
                faults.append(f"{file.name}: {error}")


def _opened(path: str, owner: str, faults: list[str]) -> Iterator["_File"]:
    """The files of the log, oldest first."""
    with acting_as(owner):
        folder, name = os.path.split(os.path.realpath(path))
        try:
            handle = os.open(folder, _FOLDER)
        except OSError as error:
            faults.append(f"{folder}: {error.strerror}")
            return
    try:
        for found in rotated(os.listdir(handle), name)[-_MOST_FILES:]:
            try:
                with acting_as(owner):  # (A restoration that was killed may have left a second name.)
                    opened = turn.opened(found, os.O_RDONLY, handle, any_names=True)
            except OSError as error:
                faults.append(f"{folder}/{found}: {error.strerror}")
                continue
            yield _File(f"{folder}/{found}", opened)
    finally:
        os.close(handle)


def rotated(names: list[str], name: str) -> list[str]:
    """Those of these names that are the log's, oldest first: with a date, with a number, and the log itself."""
    found = [(it, match) for it in names if it.startswith(name) and (match := _ENDS.match(it, len(name)))]

    def age(it: tuple[str, "re.Match[str]"]) -> tuple[int, int, str]:
        number, date, _ = it[1].groups()
        return (0, 0, date) if date else (1, -int(number), "") if number else (2, 0, "")

    return [it for it, _ in sorted(found, key=age)]


class _File:
    """A file of the log, perhaps a compressed one, of which the end is read if it is long."""

    def __init__(self, name: str, handle: int) -> None:
        self.name, self._read = name, 0
        self._plain = open(handle, "rb")
        self._file: Any = self._plain
        if name.endswith(".gz"):
            import gzip  # (takes long to load)

            self._file = gzip.GzipFile(fileobj=self._plain)
        elif (size := os.fstat(handle).st_size) > _MOST:
            self._plain.seek(size - _MOST)
            self.readline()  # (Its beginning isn't there.)

    def readline(self) -> bytes:
        """The next line, or nothing at the end. One that is too long is an empty one: whoever wrote its words mustn't choose where
        another line begins."""
        line = self._part()
        if len(line) < _MOST_OF_A_LINE or line.endswith(b"\n"):
            return line
        while (part := self._part()) and not part.endswith(b"\n"):
            pass
        return b"\n"

    def _part(self) -> bytes:
        if self._read > _MOST:
            raise ValueError(f"has more than {_MOST >> 20} MiB, which aren't read")
        part: bytes = self._file.readline(_MOST_OF_A_LINE)
        self._read += len(part)
        return part

    def __enter__(self) -> "_File":
        return self

    def __exit__(self, *error: object) -> None:
        with contextlib.suppress(OSError):
            self._file.close()
        self._plain.close()
