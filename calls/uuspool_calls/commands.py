"""The commands that neighbours may run here: /etc/uuspool/commands has a line for each, with its name, its
program, `+options` if words may begin with a hyphen, `+no-words` if it may have no words, `user=NAME` if it runs
as another user, `limit=MINUTES` if it may take long, and the neighbours that may use it. If none is named, all may, and
so may this site's own users, whom this site's name stands for."""
from collections.abc import Sequence

from .errors import Delay, Refusal
from .files import read_bytes
from .texts import is_number
from .values import NamedTuple

_MINUTE = 60  # seconds
_AS, _LIMIT = "user=", "limit="


class Command(NamedTuple):
    """A line of the file."""

    name: str
    program: str
    flags: frozenset[str]
    users: frozenset[str]
    runs_as: str = ""  # a user of this machine, or nothing for the spool's
    minutes: str = ""  # for which it may work, or nothing for the usual time

    def expect_allowed(self, own: str, sender: str, words: Sequence[str], path: str) -> None:
        """Whether this sender may run it with these words. A job of this site's users has no sender."""
        if self.users and (sender or own) not in self.users:
            raise Refusal(f"{own} does not let {sender or 'its own users'} run {self.name}: {path} names other neighbours")
        if "+no-words" in self.flags and words:
            raise Refusal(f"{own} lets {self.name} have no words")
        if "+options" not in self.flags and (odd := next((it for it in words if it.startswith("-")), "")):
            raise Refusal(f"{own} lets no word of {self.name} begin with a hyphen: {odd}")

    def line(self, words: Sequence[str]) -> list[str]:
        """What is executed. sudo has to allow it to the spool's user, and to keep what tells the command of its job. (If sudoers
        let the spool's user choose that by SETENV, this user could give the program a library of its own.)"""
        return ["sudo", "-n", "-u", self.runs_as, "--", self.program, *words] if self.runs_as else [self.program, *words]

    def seconds(self, usual: int, path: str) -> int:
        """For how long it may work."""
        if not self.minutes:
            return usual
        if not is_number(self.minutes) or not int(self.minutes):
            raise Delay(f"{path}: {self.name} has {_LIMIT}{self.minutes}, which is no number of minutes")
        return int(self.minutes) * _MINUTE

    @property
    def is_open(self) -> bool:
        """Whether any neighbour may give it options."""
        return "+options" in self.flags and not self.users


def read(path: str) -> list[Command]:
    """The commands in a file. Delay if it can't be read."""
    text = read_bytes(path)
    if text is None:
        raise Delay(f"there is no readable file {path}")
    found = []
    for line in text.decode(errors="surrogateescape").split("\n"):
        words = line.split()
        if words and not words[0].startswith("#"):
            found.append(_command(words[0], words[1] if len(words) > 1 else "", words[2:]))
    return found


def _command(name: str, program: str, others: Sequence[str]) -> Command:
    flags = frozenset(it for it in others if it.startswith("+"))
    users = frozenset(it for it in others if it not in flags and not it.startswith((_AS, _LIMIT)))
    return Command(name, program, flags, users, _value(_AS, others), _value(_LIMIT, others))


def _value(key: str, words: Sequence[str]) -> str:
    """What the last word with this key says."""
    return next((it.removeprefix(key) for it in reversed(words) if it.startswith(key)), "")


def find(path: str, name: str, own: str) -> Command:
    """The command of this name."""
    for command in read(path):
        if command.name == name:
            return command
    raise Refusal(f"{own} has no command {name} for neighbours: {path} has no line of it")
