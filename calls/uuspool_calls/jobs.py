"""Jobs that wait in the spool."""
from collections.abc import Sequence

from .errors import Refusal
from .values import NamedTuple

MAIL = "rmail"  # ADDRESS..: delivers mail
REQUEST = "uuspool-request"  # FROM TO [-m] [-nUSER]: a request with wishes


def at_home(user: str, own: str) -> str:
    """Who a user is here, if the way to the user comes back to this site: it asked a neighbour for what came."""
    return user.rpartition(f"!{own}!")[2]


class Job(NamedTuple):
    """A line of `list`."""

    number: int
    system: str
    user: str
    grade: str
    day: str
    hour: str
    size: int
    kind: str
    words: tuple[str, ...]
    line: str

    @staticmethod
    def read(line: str) -> "Job":
        """The job of a line."""
        number, system, user, grade, day, hour, size, kind, *words = line.split(" ")
        return Job(int(number), system, user, grade, day, hour, int(size), kind, tuple(words), line)

    @property
    def what(self) -> str:
        """What is to be done."""
        return " ".join((self.kind, *self.words))

    @property
    def sender(self) -> str:
        """The neighbour that it came from, or nothing."""
        return self.user.partition("!")[0] if "!" in self.user else ""

    @property
    def party(self) -> str:
        """Who has one share of what all have: a neighbour, a local user, or all addresses whose mail a mailer queued, because a stranger may
        have any number of these."""
        return f"{self.sender}!" if self.sender else "@" if "@" in self.user else self.user

    @property
    def is_letter(self) -> bool:
        """Whether it is a letter of a site, about which nobody gets a letter."""
        return self.user.endswith("MAILER-DAEMON")


class Wishes(NamedTuple):
    """What the sender of a file asks for besides: a letter when it came, and one for a user here."""

    mail: bool = False
    notify: str = ""

    @staticmethod
    def read(words: Sequence[str]) -> "Wishes":
        """What the words after a file's two names ask for."""
        wishes = Wishes()
        for word in words:
            if word == "-m":
                wishes = wishes._replace(mail=True)
            elif word.startswith("-n") and len(word) > 2:
                wishes = wishes._replace(notify=word[2:])
            else:
                raise Refusal(f"a file has no option {word}")
        return wishes


class Parcel(NamedTuple):
    """A job with its bytes, and the text that `show` printed."""

    job: Job
    text: bytes

    @staticmethod
    def read(text: bytes) -> "Parcel":
        """The job in an output of `show`. ValueError if it isn't whole."""
        line, _, data = text.partition(b"\n")
        parcel = Parcel(Job.read(line.decode()), text)
        if parcel.job.kind != "request" and len(data) != parcel.job.size:
            raise ValueError(f"{len(data)} of {parcel.job.size} bytes")
        return parcel

    @property
    def data(self) -> bytes:
        """Its bytes."""
        return self.text.partition(b"\n")[2]


class Delivered(NamedTuple):
    """A job as its delivery needs it: its kind and words, the open file of its bytes, and who sent it."""

    kind: str
    words: tuple[str, ...]
    content: int
    sender: str  # the neighbour that it came from, or nothing
    user: str
    name: str  # the same if it comes again
    grade: str = "N"
    working: str = ""  # the file that says which process delivers it, if it is tried again
    first: str = ""  # the name of the job that brought its first piece, if it came in pieces and that is known
    mark: str = ""  # what is the same of the whole whichever job brings it to its end, if it came in pieces

    @property
    def what(self) -> str:
        """What is to be done."""
        return " ".join((self.kind, *self.words))

    @property
    def number(self) -> int:
        """By which it is older or newer than another one. (A first piece may have come to a spool that was there before.)"""
        return min(int(name.split("!")[1]) for name in (self.name, self.first) if name)

    @property
    def moment(self) -> str:
        """When it came, as the site's clock shows that."""
        return self.name.rpartition("!")[2].replace(".", " ")

    def environment(self) -> dict[str, str]:
        """By which a command may know the job."""
        return {"UUSPOOL_JOB": self.name, "UUSPOOL_SENDER": self.sender, "UUSPOOL_USER": self.user}
