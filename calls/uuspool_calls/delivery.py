"""How one job is delivered at this site. Each word of a stranger goes to its program as one word."""
import contextlib
from collections.abc import Callable, Iterator, Mapping, Sequence
from functools import partial

from . import commands, envelope, files, forward, public, works
from .errors import Delay, Refusal
from .jobs import MAIL, Delivered, Job, Wishes, at_home
from .pieces import COMMAND, File, Piece, Pieces, cannot_be_kept
from .processes import Program
from .session import Session
from .texts import is_name, lines_of, printable
from .values import NamedTuple

_MOST_SHOWN = 200  # bytes of what a command prints
_KILLED = 137
_PATIENCE = 60  # seconds for another file of the sender to get its name


class StillWorks(Delay):
    """The command of a job works, though what began it is gone. So the job is neither delivered nor refused now."""


class Outcome(NamedTuple):
    """What became of a job."""

    what: str  # as the log has it
    how: str = "delivered"
    is_last: bool = False  # of the pieces of a file, which is forgotten once the spool knows
    wishes: Wishes = Wishes()
    is_onward: bool = False  # it was queued for another system


class Asked(NamedTuple):
    """What a delivery asks of the spool."""

    hand_on: Callable[[str, Delivered], None]  # queues a command for a system
    is_system: Callable[[str], bool]  # whether a name is that of a system
    find: Callable[[int], Job | None]  # the job of a number, if it waits
    word: str  # which another spool doesn't have


class Delivery:
    """Delivers jobs at a site, from the folder in which it works. What is refused of files that come in pieces goes to
    another one. Mail that was too large for the spool to hand on is handed on here."""

    def __init__(self, session: Session, own: str, folders: tuple[str, str], environment: Mapping[str, str], asked: Asked) -> None:
        self._session, self._own, self._environment, self._asked = session, own, environment, asked
        self._folder, self._refused = folders
        self._limit = session.command_limit

    def deliver(self, job: Delivered) -> Outcome:
        """Delivers a job. Refusal if it never can be delivered, Delay if it can't be now."""
        self._expect_at_rest(job)
        self._expect_allowed(job)
        if job.words[0] == COMMAND and job.kind == "exec":
            return self._take_piece(job)
        if job.kind == "exec":
            return Outcome(job.what, is_onward=self._run(job))
        put = self.public_of(job.sender).put(job.words[1], job.content, partial(self._names, job))
        return Outcome(job.what + _other(job.words[1], put), wishes=Wishes.read(job.words[2:]))

    def _expect_at_rest(self, job: Delivered) -> None:
        """StillWorks if a command works on a job, though what began it is gone. What that left of it is ended."""
        if job.working:
            if works.is_so(job.working):
                raise StillWorks(f"{job.words[0]} at {self._own} still works on it, though what began it was ended")
            works.end_left(job.working)

    def _expect_allowed(self, job: Delivered) -> None:
        """Refusal of what no bytes can change. So a file is refused with its first piece."""
        if job.sender and not is_name(job.sender):
            raise Refusal(f"{job.sender}, from which it came, is no name of a neighbour")
        if job.kind == "send" and len(job.words) >= 2:
            public.expect_inside(job.words[1], self._own)
            if self.public_of(job.sender).is_common:
                self._expect_of_nobody(job.words[1], job.sender)
            if notify := Wishes.read(job.words[2:]).notify:
                if "!" in notify.removeprefix(f"{self._own}!"):
                    raise Refusal(f"{self._own} writes to its own users that a file came, not to {notify}")
                self._expect_forwarded(job.sender, [notify])
        elif job.kind != "exec" or not job.words:
            raise Refusal(f"{self._own} takes no job of the kind {job.kind}")
        elif job.words[0] == COMMAND:
            kind, *words = _piece(job).words
            if kind == "exec" and words[0] == COMMAND:
                raise Refusal("a piece is no piece of another file")
            self._expect_allowed(job._replace(kind=kind, words=tuple(words)))
        else:
            self._command(job)

    def _expect_of_nobody(self, path: str, sender: str) -> None:
        """Refusal of a file where those of another neighbour are to come."""
        first = path.removeprefix("~/").split("/")[0]
        if first not in (self._own, sender) and is_name(first) and self._asked.is_system(first):
            raise Refusal(f"{path} is where files of {first} come to {self._own}, and no others")

    def _expect_forwarded(self, sender: str, addresses: Sequence[str], hop: str = "") -> None:
        if sender:
            forward.expect_allowed(f"{self._session.etc}/forward", self._own, sender, addresses, hop)

    def public_of(self, sender: str) -> public.Public:
        """The public folder for a sender."""
        common = self._environment.get("UUSPOOL_PUBLIC", "")
        return public.find(common, f"{self._session.etc}/public", sender, self._own)

    @contextlib.contextmanager
    def _names(self, job: Delivered, name: str) -> Iterator[public.Names]:
        """The record of the names of the sender's files, for a file of this name. No other job puts a file meanwhile."""
        from . import newest  # (which few jobs need)

        sender = job.sender or self._own
        path, word = f"{self._folder}/deliver/.{sender}.files", self._asked.word
        needed = partial(self._record_needed, name, path)

        user = at_home(job.user, self._own)
        asked = user if job.sender and user != job.user else ""

        def replaces(name: str, is_there: bool) -> bool:
            with needed():
                return newest.note(path, word, name, job.number, is_there, asked)

        def put_beside(name: str) -> None:
            with needed():
                newest.put_beside(path, word, name, job.number)

        def is_of_job(name: str) -> bool:
            return newest.is_of_job(path, word, name, job.number)

        with contextlib.ExitStack() as held:
            with needed():
                lock = held.enter_context(files.Lock(f"{path}.lock"))
                if not lock.wait(_PATIENCE, self._session.processes.pause):
                    raise Delay(f"{name} waits at {self._own} for another file of {sender}")
            yield public.Names(replaces, put_beside, is_of_job)

    @contextlib.contextmanager
    def _record_needed(self, name: str, path: str) -> Iterator[None]:
        try:
            yield
        except OSError as error:
            raise Delay(f"{name} waits at {self._own}, because {path} cannot be written: {error.strerror}") from None

    def _pieces_of(self, job: Delivered) -> Pieces:
        folder = f"{self._folder}/pieces/{job.sender or self._own}"
        return Pieces(folder, self._refused, self._session.processes.pause, self._limit)

    def _held(self, job: Delivered) -> contextlib.AbstractContextManager[File]:
        """The file of which the job is a piece."""
        return self._pieces_of(job).held(_piece(job), job.user, job.name)

    def forget(self, job: Delivered) -> None:
        """Forgets the file that was delivered with this piece."""
        with self._held(job) as file:
            if file.about.came_with(job.name):
                file.forget()

    def _take_piece(self, job: Delivered) -> Outcome:
        """Keeps a piece. With the last one the whole is delivered as a job of its own, once, even after a stop."""
        piece = _piece(job)
        kind, *words = piece.words
        with self._held(job) as file:
            whole = job._replace(kind=kind, words=tuple(words), working=file.working, first=file.about.job, mark=piece.name(job.user))
            if file.about.came_with(job.name):
                return Outcome(file.about.what, is_last=True, wishes=Wishes.read(words[2:] if kind == "send" else ()))
            if file.about.came:
                return Outcome(f"{piece.place} of {whole.what}", "came-before")
            try:
                file.take(piece, job.content)
            except OSError as error:
                raise cannot_be_kept(piece, self._folder, error) from None
            if file.is_refused or not file.is_whole():
                return Outcome(f"{piece.place} of {whole.what}", "refused" if file.is_refused else "kept")
            with file.opened() as content:
                outcome = self.deliver(whole._replace(content=content, name=self._begin(file, job, whole)))
            try:
                file.note_came(job.name, outcome.what)
            except OSError as error:
                # (It isn't delivered again, since the spool perhaps can note it.)
                self._session.say(f"{whole.what} is delivered, and that cannot be noted in {file.folder}: {error.strerror}")
            return outcome._replace(is_last=True)

    def _begin(self, file: File, job: Delivered, whole: Delivered) -> str:
        """The name with which the whole is delivered: that of the job which brought the last piece. If a stop has another piece bring it
        to its end, it keeps that name while that job waits, because by the name nothing is queued or done twice.

        A command doesn't begin if there is no room for the note that it ended, or it would run again."""
        begun = file.begun_with()
        other = self._asked.find(int(begun.split("!")[1])) if begun else None
        its = Piece.of(other) if other else None
        if other and its and its.name(other.user) == _piece(job).name(job.user):
            return begun
        try:
            file.prepare_note(job.name, whole.what)
        except OSError as error:
            raise cannot_be_kept(_piece(job), self._folder, error) from None
        return job.name

    def has_come(self, job: Delivered) -> bool:
        """Whether a job is a piece of a file that was delivered."""
        if job.kind != "exec" or Piece.read(job.words) is None:
            return False
        with self._held(job) as file:
            return file.about.came != ""

    def set_aside(self, job: Delivered, why: str) -> bool:
        """Refuses the file of which a job is a piece, as far as it came. Whether it is one. StillWorks if a command works on the job,
        or on the file."""
        self._expect_at_rest(job)
        if job.kind != "exec" or Piece.read(job.words) is None:
            return False
        with self._held(job) as file:
            if file.about.came:
                return True
            self._expect_at_rest(job._replace(words=file.about.piece.words[1:], working=file.working))
            with contextlib.suppress(Refusal, Delay, OSError):
                file.take(_piece(job), job.content)
            if not file.is_refused:
                file.set_aside(self._refused, why)
        return True

    def _words(self, job: Delivered) -> list[str]:
        """The words of a command. What comes for this site's own name and a path is for that path."""
        name, *words = job.words
        return [forward.behind(f"{self._session.etc}/forward", self._own, it) for it in words] if job.sender and name == MAIL else words

    def _command(self, job: Delivered) -> commands.Command:
        name, words = job.words[0], self._words(job)
        path = f"{self._session.etc}/commands"
        command = commands.find(path, name, self._own)
        command.expect_allowed(self._own, job.sender, words, path)
        if name == MAIL:
            if job.sender and not words:
                raise Refusal(f"{name} names nobody, and {self._own} takes no recipients from the message")
            self._expect_forwarded(job.sender, words, self._hop(job, words))
        return command

    def _hop(self, job: Delivered, words: Sequence[str]) -> str:
        """The system to which mail goes on as a whole, or nothing."""
        return forward.next_hop(f"{self._session.etc}/forward", job.sender, words) if job.sender and job.words[0] == MAIL else ""

    def _run(self, job: Delivered) -> bool:
        """Runs the command of a job, or hands its mail on. Whether it does that."""
        name, words = job.words[0], self._words(job)
        command = self._command(job)
        if hop := self._hop(job, words):
            rest = [word.removeprefix(f"{hop}!") for word in words]
            if odd := next((word for word in rest if word.startswith("-")), None):
                raise Refusal(f"{odd}, which is no user of {hop}, would be an option there")
            with envelope.handed_on(job, self._own, self._folder) as content:
                self._asked.hand_on(hop, job._replace(words=(name, *rest), content=content))
            return True
        environment = {**self._environment, **job.environment(), "UUSPOOL_USER": _user_of(job)}
        path = f"{self._session.etc}/commands"
        limit = command.seconds(self._limit, path)
        first = partial(works.note, job.working) if job.working else None
        program = Program(command.line(words), self._folder, environment, limit, _MOST_SHOWN, first=first, leaves_none=True)
        with self._given(job) as content:
            ended = self._session.processes.run(program, content, joined=True)
        if ended.status:
            line = printable((lines_of(ended.output) or [b""])[0])[:_MOST_SHOWN]
            self._explain(ended.status, name, limit, f"{path}: {command.program}", f": {line}" if line else "")
        return False

    def _given(self, job: Delivered) -> contextlib.AbstractContextManager[int]:
        """The open file that a command gets: the job's bytes, and before mail its envelope."""
        return envelope.signed(job, self._own, self._folder) if job.words[0] == MAIL else contextlib.nullcontext(job.content)

    def _explain(self, status: int, name: str, limit: int, program: str, said: str) -> None:
        own = self._own
        if 64 <= status <= 69:
            raise Refusal(f"{name} at {own} refused it with status {status}{said}")
        if status == 124:
            raise Delay(f"{name} at {own} did not end within {limit} seconds")
        if status == _KILLED:
            raise Delay(f"{name} at {own} was killed, or did not end within {limit} seconds")
        if status in (126, 127):
            raise Delay(f"{program} cannot be run at {own}")
        raise Delay(f"{name} at {own} failed with status {status}{said}")


def _piece(job: Delivered) -> Piece:
    """The piece that a job is."""
    piece = Piece.read(job.words)
    if piece is None:
        raise Refusal(f"it is no piece of a file: {' '.join(job.words)[:200]}")
    return piece


def _user_of(job: Delivered) -> str:
    """The user of a job, as a program may give it to a mailer."""
    return envelope.plain_user(job.user) if job.sender else job.user


def _other(path: str, put: str) -> str:
    return f", as {put}" if put not in ("", path) else ""
