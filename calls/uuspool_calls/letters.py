"""Letters to the users of jobs."""
import contextlib
import os
from collections.abc import Sequence

from . import files, forward
from .errors import Refusal, SpoolError
from .jobs import Job, at_home
from .processes import Program
from .site import Site
from .texts import lines_of, printable
from .values import NamedTuple

_FROM = "MAILER-DAEMON"
_NULL = "<>"  # the sender in the envelope, so that no mailer sends a letter about a letter
_LIMIT = 60  # seconds for the mailer
PAUSE = 600  # seconds until a mailer that took no letter is asked again, by what is done each minute
_MOST_WAITING = 1000  # letters for a neighbour, above which no more are written to it
_MOST_NOTED = 1 << 16  # bytes of their numbers, of which the last are those that wait
_FORGOTTEN = "refused Stale"  # what the spool says of a key that it has forgotten
_SHOWN_BYTES, _SHOWN_LINES, _SHOWN_JOBS = 2000, 20, 100


class NotSent(Exception):
    """A letter can't be sent now."""


class Letter(NamedTuple):
    """A letter about a job."""

    subject: str
    what: str  # became of the job
    why: str

    def text(self, own: str, job: Job, data: bytes) -> bytes:
        """The letter, with the beginning of the job, unless it isn't given."""
        head = [
            *_head(own, job.user, f"{self.subject}: {job.what[:60]}"),
            f"A job of yours, {job.size} bytes for {job.system}, {self.what}:",
            "",
            f"    {job.what}",
            "",
            self.why,
            "",
        ]
        moment = f"{own} on {job.day} at {job.hour}"
        came = f"It was queued at {moment} as job {job.number}." if job.number else f"It came to {moment}."
        lines = [*head, f"{came} It begins:", "", *(f"> {line}" for line in _beginning(data))] if data else [*head, came]
        return "\n".join(lines).encode() + b"\n"


def _head(own: str, user: str, subject: str) -> list[str]:
    return [f"From: {_FROM} ({own})", f"To: {user or 'postmaster'}", f"Subject: {subject}", "Auto-Submitted: auto-replied", ""]


def _beginning(data: bytes) -> list[str]:
    """The first lines of a job, in printable characters."""
    lines = lines_of(data[:_SHOWN_BYTES])[:_SHOWN_LINES]
    return ["\t".join(map(printable, line.split(b"\t"))) for line in lines]


def _list_of(own: str, to: str, refused: Sequence[tuple[Job, str]]) -> bytes:
    """One letter about many jobs."""
    head = [*_head(own, to, f"refused: {len(refused)} jobs"), f"{len(refused)} jobs are refused at {own}. The first of them:", ""]
    shown = [f"{job.user or '-'} {job.size} {job.what[:60]}: {reason}" for job, reason in refused[:_SHOWN_JOBS]]
    return "\n".join([*head, *map(printable, shown)]).encode() + b"\n"


class Mailroom:
    """Sends the letters of a site: to a local user by the mailer, and to a neighbour's by the spool."""

    def __init__(self, site: Site) -> None:
        self._site = site
        self._mailer = site.environment.get("UUSPOOL_SENDMAIL") or "/usr/sbin/sendmail"

    def send(self, letter: Letter, job: Job, data: bytes, key: str = "") -> None:
        """Sends a letter to the user of a job, or else to the postmaster. A letter for a neighbour's user
        is queued once under its key, even if this is stopped."""
        self._deliver(letter.text(self._site.own, job, data), self._way(job.user), key)

    def send_word(self, user: str, subject: str, sentence: str, key: str = "") -> None:
        """Sends a letter of a few words."""
        text = [*_head(self._site.own, user, printable(subject[:80])), printable(sentence), ""]
        self._deliver("\n".join(text).encode(), self._way(user), key)

    def send_list(self, refused: Sequence[tuple[Job, str]], key: str) -> None:
        """Sends one letter about many refused jobs of a local user, or of a neighbour to its postmaster."""
        job = refused[0][0]
        to = f"{job.sender}!postmaster" if job.sender else job.user or "postmaster"
        self._deliver(_list_of(self._site.own, to, refused), to, key)

    def _way(self, user: str) -> str:
        """Where a letter goes. A neighbour says who asked it, so its word leads only to whom its mail may go."""
        own, home = self._site.own, at_home(user, self._site.own)
        if home != user:
            try:
                forward.expect_allowed(f"{self._site.etc}/forward", own, user.partition("!")[0], [home])
            except Refusal:
                return user
        return home

    def _deliver(self, text: bytes, user: str, key: str) -> None:
        if "!" in user:
            if self._queue(user, text, key):
                return
        elif self._mail(user or "postmaster", text):
            return
        if not self._mail("postmaster", text):
            raise NotSent(f"{self._mailer} takes no letter")

    def _queue(self, user: str, text: bytes, key: str) -> bool:
        self._site.will_forget_keys()
        system = user.partition("!")[0]
        try:
            if self._has_many(system):
                self._site.log.note(system, user, "", "not-told", f"{_MOST_WAITING} letters wait for {system}")
                return True
            answer = self._ask(user, text, key)
        except SpoolError:
            return False
        self._note(system, answer)
        return True

    def _ask(self, user: str, text: bytes, key: str) -> str:
        """Queues a letter, once if it has a key. If the spool has forgotten the keys of that job, the letter goes without one: after
        a kill it may come twice, which is better than never."""
        spool = self._site.spool
        if key:
            try:
                return spool.ask(f"--as={_FROM}", "mail", f"--once={key}", "--", user, given=text)
            except SpoolError as error:
                if str(error) != _FORGOTTEN:
                    raise
        return spool.ask_once(f"--as={_FROM}", "mail", "--", user, given=text).decode()

    def _has_many(self, system: str) -> bool:
        """Whether so many letters wait for a neighbour that it hears of no more jobs, since it may have them made without end."""
        spool = self._site.spool
        if spool.queued(system).jobs < _MOST_WAITING:
            return False
        ours = set(files.read_end(self._noted(system), _MOST_NOTED).split())
        return sum(b"%d" % it.number in ours for it in spool.waiting(system)) >= _MOST_WAITING

    def _noted(self, system: str) -> str:
        return f"{self._site.folder}/refused/.letters-{system}.numbers"

    def _note(self, system: str, answer: str) -> None:
        """Keeps the number of a letter for a neighbour. (Its user doesn't tell it from other mail, because mailers give that user to
        what has no sender.)"""
        word, _, number = answer.strip().partition(" ")
        path = self._noted(system)
        with contextlib.suppress(OSError):
            if word == "job":
                with files.opened(path, os.O_WRONLY | os.O_APPEND | os.O_CREAT) as handle:
                    files.write_all(handle, f"{number}\n".encode())
            if (seen := files.look(path)) and seen.st_size > _MOST_NOTED:
                files.replace(path, files.read_end(path, _MOST_NOTED // 2).partition(b"\n")[2])

    def _mail(self, user: str, text: bytes) -> bool:
        words = [self._mailer, "-i", "-f", _NULL, "--", user]
        program = Program(words, self._site.folder, self._site.environment, _LIMIT)
        return self._site.session.processes.run(program, text).status == 0
