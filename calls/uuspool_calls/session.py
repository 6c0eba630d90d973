"""One run of a command: what it is called, where things are installed, and how it speaks."""
import contextlib
import os
import pwd
from collections.abc import Iterator, Mapping, Sequence

from .errors import LATER, NOT_SET_UP, USAGE, Failure
from .processes import Ended, Processes, Program
from .texts import is_number

ETC = "/etc/uuspool"  # the folder of the site's files, if UUSPOOL_ETC names no other
_PASSED = frozenset("PATH HOME TERM LANG TZ TMPDIR".split())
_PASSED_HEADS = ("LC_", "UUSPOOL_", "UUCICO_")
_MOST_OF_ANOTHER = 1 << 24  # bytes that another user's program may write
_LIBRARY = os.path.dirname(os.path.dirname(os.path.realpath(__file__)))


class Session:
    """What a run of a command has."""

    def __init__(self, name: str, environment: Mapping[str, str], library: str = _LIBRARY) -> None:
        self.name = name  # with which its sentences begin
        self.command = name
        self.environment = {**environment, "LC_ALL": "C"}
        self.library = library
        self.commands = f"{os.path.dirname(os.path.dirname(library))}/bin"
        self.program = f"{self.commands}/uuspool"
        self.etc = environment.get("UUSPOOL_ETC") or ETC
        self.processes = Processes()

    def say(self, sentence: str) -> None:
        """Prints a sentence as an error, whole. (A carrier has no name: its last line says why a call failed.)"""
        head = f"{self.name}: " if self.name else ""
        os.write(2, f"{head}{_shown(sentence)}\n".encode())

    def print(self, line: str) -> None:
        """Prints a line."""
        os.write(1, f"{_shown(line)}\n".encode())

    def setting(self, name: str, otherwise: int) -> int:
        """A number of the environment."""
        word = self.environment.get(name) or str(otherwise)
        if not is_number(word):
            raise Failure(USAGE, f"{name} is {word}, and has to be a number")
        return int(word)

    @property
    def call_limit(self) -> int:
        """The seconds of a call."""
        return self.setting("UUSPOOL_CALL_LIMIT", 3600)

    @property
    def command_limit(self) -> int:
        """The seconds of a command that neighbours run, if its line gives no others."""
        return self.setting("UUSPOOL_COMMAND_LIMIT", 50)

    @property
    def at_once(self) -> int:
        """How many calls are made, or jobs delivered, at a time."""
        return max(1, self.setting("UUSPOOL_AT_ONCE", 8))

    def finds(self, program: str, more: str = "") -> bool:
        """Whether a program is there, by its path or in one of the folders of PATH and these. (The module shutil takes long to
        load.)"""
        folders = filter(None, (self.environment.get("PATH", "") + more).split(":"))
        paths = [program] if "/" in program else [os.path.join(folder, program) for folder in folders]
        return any(os.path.isfile(path) and os.access(path, os.X_OK) for path in paths)

    def run_as(self, owner: str, words: Sequence[str], given: bytes | int = b"", joined: bool = False) -> Ended:
        """Runs a program as this user. Whatever else another user runs could write into the pipe, or stop the program, so that
        one is ended when it writes more than fits, or takes longer than a call."""
        program = Program(words, "", self.environment)
        theirs = self.acting(owner, program)
        if theirs is program:
            return self.processes.run(program, given, joined=joined)
        theirs = theirs._replace(limit=self.call_limit, most=_MOST_OF_ANOTHER, ends_beyond=True)
        ended = self.processes.run(theirs, given, joined=joined)
        if ended.wrote_too_much:
            why = f"{words[0]}, run as {owner}, wrote more than {_MOST_OF_ANOTHER >> 20} MiB"
            raise Failure(LATER, f"{why}: try again, and see what else runs as {owner}: ps -u {owner}")
        return ended

    def acting(self, owner: str, program: Program) -> Program:
        """A program as this user runs it: another one gets nothing of root's but its input, and what `passed` names."""
        if owner == user_name(os.geteuid()):
            return program
        try:
            number, group = numbers_of(owner)
        except KeyError:
            raise Failure(NOT_SET_UP, f"{owner}, as whom {program.words[0]} has to run, has no account") from None
        return program._replace(folder="", environment=self.passed(), first=lambda: _become(owner, number, group), leaves_terminal=True)

    def passed(self) -> dict[str, str]:
        """What another user gets of root's environment, which may have passwords."""
        return {name: value for name, value in self.environment.items() if name in _PASSED or name.startswith(_PASSED_HEADS)}

    def may(self, owner: str, path: str, mode: int) -> bool:
        """Whether this user may use a file: os.R_OK, os.W_OK or os.X_OK."""
        if owner == user_name(os.geteuid()):
            return os.access(path, mode)
        letter = {os.R_OK: "-r", os.W_OK: "-w", os.X_OK: "-x"}[mode]
        return self.run_as(owner, ["test", letter, path]).status == 0


def _shown(line: str) -> str:
    """What is printed of a line. A name in it may be the spool's user's, and root's terminal mustn't obey it."""
    return "".join(it if it.isprintable() else "?" for it in line)


def line_as(user: str, words: str) -> str:
    """What root types to run words as a user. (By `runuser` they would have root's terminal, folder and keys.)"""
    return f"{_LIBRARY}/as-owner {user} {words}"


def user_name(number: int) -> str:
    """The name of a user, or its number if it has none."""
    try:
        return pwd.getpwuid(number).pw_name
    except KeyError:
        return str(number)


def numbers_of(user: str) -> tuple[int, int]:
    """The numbers of a user and of the user's group."""
    entry = pwd.getpwnam(user)
    return entry.pw_uid, entry.pw_gid


def _become(user: str, number: int, group: int) -> None:
    """This process leaves root's folder and keys, and becomes a user's. (No process of that user sees what it still has
    open, because the kernel lets nobody look into it until it becomes another program, and that closes all.)"""
    from . import kernel  # (which only root needs)

    try:
        os.chdir("/")
        kernel.leave_keyring()
        os.initgroups(user, group)
        os.setresgid(group, group, group)
        os.setresuid(number, number, number)
    except OSError as error:
        os.write(2, f"This process cannot become {user}'s: {error.strerror}\n".encode())
        os._exit(LATER)


@contextlib.contextmanager
def acting_as(user: str) -> Iterator[None]:
    """root uses what is in a folder of the user's as that user, who may put links there meanwhile. (Without a user, and
    for anybody but root, nothing changes.)"""
    if os.geteuid() or not user:
        yield
        return
    number, group = numbers_of(user)
    groups = os.getgroups()
    os.initgroups(user, group)
    os.setegid(group)
    os.seteuid(number)
    try:
        yield
    finally:
        os.seteuid(0)
        os.setegid(0)
        os.setgroups(groups)
