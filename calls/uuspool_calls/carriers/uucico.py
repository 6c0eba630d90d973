"""uucico SYSTEM [OPTION..]: carries a bundle by Taylor UUCP, as one execution of uuspool-answer at the neighbour.
uucico -q SYSTEM: queues the bundle for the next call, in either direction.
uucico -c SYSTEM: queues it for the call of the neighbour that begins now.

The neighbour's answer comes as such an execution too, so nothing is printed here. Taylor's spool has at most one
bundle for a neighbour, because a new one says all that an old one did. One that was there during a call and is there
still stays, because Taylor goes on with a file where the line fell, and only under its own name. A bundle that left and
didn't arrive is packed again. Before all of it goes again, a call says and fetches everything except jobs, and asks for
the same grades."""
import os
from collections.abc import Sequence
from enum import Enum

from .. import bundle
from ..contacts import Contacts
from ..digests import sha256
from ..errors import LATER, USAGE, Failure
from ..processes import Ended, Program
from ..session import Session
from ..taylor import Taylor

_NO_JOB = "~"  # instead of a grade, after all of them


class Occasion(Enum):
    """Why a bundle is queued."""

    CALL = ""  # this site calls the neighbour
    CALLED = "-c"  # the neighbour's call begins
    ANSWER = "-q"  # the neighbour's bundle came, with a call in which what waits here should have gone


def run(session: Session, words: Sequence[str]) -> int:
    """The carrier, which calls unless an option says that it only queues."""
    occasion = next((it for it in Occasion if it.value and words[:1] == [it.value]), Occasion.CALL)
    names = words if occasion is Occasion.CALL else words[1:]
    if not names:
        raise Failure(USAGE, "uucico: no system")
    session.processes.catch_stops()
    text = session.processes.read_input(0, bundle.MOST, session.call_limit) or b""
    grade = session.environment.get("UUSPOOL_GRADE", "") if occasion is Occasion.CALL else ""
    bundles = Bundles(session, names[0], grade)
    bundles.put(text, occasion)
    if occasion is Occasion.CALL:
        bundles.call(names[1:])
    return 0


class Bundles:
    """Our bundles for a neighbour in Taylor's spool."""

    def __init__(self, session: Session, system: str, grade: str) -> None:
        self._session, self._system, self._grade = session, system, grade
        self._taylor = Taylor(session, system)
        self._contacts = Contacts(os.getcwd())  # (a carrier runs in the folder of the spool)
        self._contact = self._contacts.find(system)

    def put(self, text: bytes, occasion: Occasion) -> None:
        """Queues a bundle, unless one waits of which a call may have sent a part, and no job of a higher grade came
        since. The jobs are left out if exactly this one left with the last call, and nothing was answered since."""
        waiting, is_answer = self._queued(), occasion is Occasion.ANSWER
        grade = next((offer.grade for offer in bundle.offers_in(text)), _NO_JOB)
        if waiting and grade >= self._contact.grade and (is_answer or self._contact.tried):
            self._contacts.change(self._system, tried=True)
            return
        digest = sha256(text).hexdigest()
        if self._contact.left == digest:
            text, digest = self._without_jobs(), ""
        for name in waiting:
            self._taylor.kill(name)  # (what is being sent can't be taken out, and does no harm)
        self._expect_queued(self._taylor.run("uux", "-r", "-gA", "-", f"{self._system}!uuspool-answer", given=text))
        self._contacts.change(self._system, waits=digest, grade=grade, tried=not is_answer)

    def _without_jobs(self) -> bytes:
        words = ["pack", "--no-jobs", *([f"-g{self._grade}"] if self._grade else []), "--", self._system]
        program = Program([f"{self._session.commands}/uuspool", *words], "", self._session.environment)
        ended = self._session.processes.run(program)
        self._expect_queued(ended)
        return ended.output

    def _expect_queued(self, ended: Ended) -> None:
        os.write(2, ended.errors)
        if ended.status:
            raise Failure(LATER, "uux cannot queue the bundle")

    def _queued(self) -> list[str]:
        """The bundles for the neighbour in Taylor's spool, by its own names."""
        return [it.id for it in self._taylor.waiting() if it.what.split(" ")[:2] == ["Executing", "uuspool-answer"]]

    def call(self, options: Sequence[str]) -> None:
        """Calls the neighbour."""
        status, process = self._taylor.call(options)
        has_left = not self._queued()
        if has_left:
            self._note_left(broke=status != 0)
        if status or not has_left:
            raise Failure(LATER, self._taylor.explained(status, process))

    def _note_left(self, broke: bool) -> None:
        """That our bundle left. If it was one without jobs, and the call broke, the answer to the jobs before it may
        still come, so these don't go again yet."""
        contact = self._contacts.find(self._system)
        left = contact.waits or (contact.left if broke else "")
        self._contacts.change(self._system, left=left, waits="", grade="", tried=False)
