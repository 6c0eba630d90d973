"""uuspool-page: one HTML page of what waits in the spool of a site, for which system, and when it can go, with the
next seven days of each system as a picture.

It asks the spool by one batch of the program, so all answers are about one state. It prints the page. With -o it writes
a file whole, or leaves it as it is. Today's calls come from the log. The files beside the spool say which jobs were
refused and which systems nobody can call. The page needs no script, no other file and no network. It has the lines of
`list`, and no bytes of jobs."""
import argparse
import os
import re
from collections.abc import Sequence

from .. import clock as now_here
from .. import files, settings
from ..errors import Failure
from ..processes import Program
from ..session import Session, acting_as, user_name
from ..site import owner_of
from ..spool import answers_in
from ..texts import one_line
from .answers import Answers
from .beside import Beside
from .times import Clock, moment, stamp
from .whole import Page

_WRONG, _SPOOL, _STREAMS = 2, 3, 5  # statuses, as the program has them
_LAST = 4_102_444_800  # the last second that --at takes
_LIMIT = 300  # seconds for all questions


def run(session: Session, words: Sequence[str]) -> int:
    """The command."""
    given = _options(words)
    session.processes.catch_stops()
    written = _page(session, given).encode()
    try:
        if given.o is None:
            files.write_all(1, written)
        else:
            _replace(session, given.o, written)
    except OSError as error:
        raise Failure(_STREAMS, f"cannot write {given.o or 'standard output'}: {error.strerror}") from None
    return 0


def _options(words: Sequence[str]) -> argparse.Namespace:
    what = "Prints one HTML page of what waits in the spool of a site, and when it can go."
    parser = argparse.ArgumentParser(prog="uuspool-page", allow_abbrev=False, description=what)
    parser.add_argument("-c", metavar="FILE", help="the settings of the site, instead of those that uuspool finds")
    parser.add_argument("-o", metavar="FILE", help="writes this file instead of standard output, whole or not at all")
    parser.add_argument("-r", metavar="SECONDS", type=_seconds, help="has the page loaded again after so many seconds")
    parser.add_argument("--at", metavar="SECONDS", type=_seconds, help="the second that counts as now, UTC, instead of the clock's")
    return parser.parse_args(words)


def _seconds(word: str) -> int:
    if not re.fullmatch("[0-9]{1,10}", word) or int(word) > _LAST:
        raise argparse.ArgumentTypeError(f"{word!r} is no number of seconds up to {_LAST}")
    return int(word)


class _Batch:
    """Asks the spool some lines at a time, by a batch of the program, which another user may run."""

    def __init__(self, session: Session, owner: str, words: Sequence[str]) -> None:
        self._session, self._owner, self._words = session, owner, words

    def ask(self, questions: Sequence[str]) -> list[str]:
        """The answers."""
        lines = "".join(f"0 {words}\n" for words in questions).encode()
        if self._owner:
            ended = self._session.run_as(self._owner, self._words, lines)
        else:
            ended = self._session.processes.run(Program(self._words, "", self._session.environment, _LIMIT), lines)
        answers = list(answers_in(ended.output))
        for words, answer in zip(questions, [*answers, *[None] * len(questions)]):
            if answer is None:
                raise _no_answer(words, ended.status or _SPOOL, ended.errors)
            if answer.status:
                raise _no_answer(words, answer.status, answer.errors or answer.output)
        return [it.output.decode("ascii", errors="replace") for it in answers]


def _no_answer(words: str, status: int, said: bytes) -> Failure:
    return Failure(status if 0 < status < 6 else _SPOOL, f"no answer to `{words}`: {one_line(said) or 'nothing was said'}")


def _page(session: Session, given: argparse.Namespace) -> str:
    now = now_here.now() if given.at is None else given.at
    options = ["-c", given.c] if given.c else []
    try:
        site = settings.find(session, options)
    except settings.NoSite as why:
        raise Failure(_WRONG if why.ended == _WRONG else _STREAMS, str(why).removeprefix("uuspool: ")) from None
    except Failure as why:
        raise Failure(_SPOOL, str(why)) from None
    owner = _owner_of(site)
    words = [session.program, *options, "batch"] if not owner else _words_of_owner(session, site, owner)
    ask = _Batch(session, owner, words).ask
    answers = ask(["systems", "status", "queues", f"--at {now} when", "list"])
    clock = Clock(site.zone)
    try:
        spool = Answers(answers, now)
        spool.date(ask, clock, now)
        _compare(clock, spool.told)
        today = f"{moment(clock.shown(now)):%Y-%m-%d}"
        with acting_as(owner):
            beside = Beside(site.folder, site.log, f"{session.etc}/calls", site.name, today)
        return Page(site.name, spool, clock, now, beside).whole(given.r)
    except (ValueError, LookupError) as error:
        raise Failure(_SPOOL, f"an answer has another form than the page knows: {error}") from error


def _owner_of(site: settings.Settings) -> str:
    """The spool's user, as whom root looks at what this user may change meanwhile, such as a link that leads to a device. (Nobody
    else looks as another user.)"""
    owner = owner_of(site) if os.geteuid() == 0 else user_name(os.geteuid())
    if owner.isdecimal():
        raise Failure(_STREAMS, f"{site.folder} belongs to user {owner}, who has no account")
    return owner if owner != user_name(os.geteuid()) else ""


def _words_of_owner(session: Session, site: settings.Settings, owner: str) -> list[str]:
    """The line by which the owner asks this site, whatever folder root is in."""
    with acting_as(owner):
        start = site.start if os.access(site.start, os.X_OK, effective_ids=True) else "/"
    return ["env", "-C", start, session.program, "-c", site.path, "batch"]


def _compare(clock: Clock, told: Sequence[tuple[int, str]]) -> None:
    """The clock has to show what the program printed for the same seconds."""
    for second, printed in told:
        if stamp(clock, second) != printed:
            raise Failure(_SPOOL, f"the C library's clock shows {stamp(clock, second)} and the program's {printed} for the same second")


def _replace(session: Session, name: str, written: bytes) -> None:
    """Writes a new file beside it, which then replaces it once its bytes are on the disk. Others may write the
    folder, so no file that is there is opened."""
    beside = os.path.join(os.path.dirname(name), f".page-{os.urandom(4).hex()}")
    opened = files.opened(beside, os.O_WRONLY | os.O_CREAT | os.O_EXCL | os.O_NOFOLLOW, 0o666)
    try:
        with opened as handle:
            files.write_all(handle, written)
            os.fsync(handle)
        session.processes.check()
        os.replace(beside, name)
    except BaseException:
        os.remove(beside)
        raise
