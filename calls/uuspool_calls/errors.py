"""How a command ends: its statuses, and what is raised to end it."""
import contextlib
from collections.abc import Iterator

# As in sysexits.h.
USAGE, REFUSED, LATER, NOT_SET_UP = 64, 69, 75, 78
_OF_THE_SITE = "uuspool: settings: ", "uuspool: time: MomentRange"  # what status 2 says if no word is wrong


class Failure(Exception):
    """Ends a command with a status and a sentence."""

    def __init__(self, status: int, sentence: str) -> None:
        super().__init__(sentence)
        self.status = status


class Stopped(Exception):
    """A signal asks the command to end."""


class SpoolError(Exception):
    """The spool didn't do a line. The text is what it said, in one line."""

    def __init__(self, status: int, said: str) -> None:
        super().__init__(said)
        self.status = status

    @property
    def is_final(self) -> bool:
        """Whether the spool read the line and would say the same again: it refused it, or the words
        are wrong. Otherwise the spool failed, or somebody has to correct the settings or the machine's clock."""
        return self.status == 1 or (self.status == 2 and not str(self).startswith(_OF_THE_SITE))


    @property
    def differs(self) -> bool:
        """Whether the spool has another job under the same key."""
        return self.status == 1 and str(self).endswith("Differs")


@contextlib.contextmanager
def spool_needed(otherwise: str) -> Iterator[None]:
    """If the spool doesn't do a line, the command ends with this and what the spool said."""
    try:
        yield
    except SpoolError as error:
        raise Failure(LATER, f"{otherwise}: {error}") from None


class Refusal(Exception):
    """A job never can be delivered here."""


class Delay(Exception):
    """A job can't be delivered now."""
