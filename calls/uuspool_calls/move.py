"""uuspool-move: moves the jobs that wait for a neighbour, or those with these numbers, to another one. A job
gets a new number. What a stop leaves half done is finished before the next call of one of both says anything. A
job in a bundle that is on its way may come to both.

A file in pieces moves with all of them. If only a part of it waits, it stays, because the rest is at the neighbour, or comes
later. So does a job that Taylor UUCP is just sending. What else Taylor has is taken out of its spool first.

Mail is addressed on, from the new neighbour to the old one, so it arrives at its address. With -k its addresses
are kept, for a neighbour that now does what the old one did."""
from collections.abc import Sequence

from . import moves, refusals
from .errors import LATER, USAGE, Failure, spool_needed
from .jobs import MAIL, Job
from .pieces import name_of
from .session import Session
from .site import Site, enter
from .texts import is_name, is_number
from .values import TYPE_CHECKING
from .wholes import Listed, Whole

if TYPE_CHECKING:
    from .handover import Handover

_USAGE = "usage: uuspool-move [-k] FROM TO [NUMBER..]"
_PATIENCE = 10  # seconds


def run(session: Session, words: Sequence[str]) -> int:
    """The command."""
    keeps = words[:1] == ["-k"]
    names = words[1:] if keeps else words
    if len(names) < 2 or not all(map(is_name, names[:2])):
        raise Failure(USAGE, _USAGE)
    origin, target, *numbers = names
    if odd := [it for it in numbers if not is_number(it)]:
        raise Failure(USAGE, f"{odd[0]} isn't the number of a job")
    site = enter(session)
    _expect_neighbour(site, origin, target)
    session.processes.catch_stops()
    with site.lock(f"calls/{origin}.lock") as lock:
        # (A call of this neighbour that is under way may bring it such a job.)
        if not lock.wait(_PATIENCE, session.processes.pause):
            raise Failure(LATER, f"{origin} is being called by another process")
        stay = _move_all(site, origin, target, set(map(int, numbers)), keeps)
    for sentence in stay:
        session.say(sentence)
    return LATER if stay else 0


def _move_all(site: Site, origin: str, target: str, numbers: set[int], keeps: bool) -> list[str]:
    """Moves all, or those with these numbers. The result says which stay, and why."""
    at_taylors = _at_taylors(site, origin)
    with site.alone():
        moves.finish_all(site)
        if not refusals.finish(site):
            raise Failure(LATER, "nothing is moved while a job that is refused cannot be removed from the spool")
        chosen, parts = _chosen(site, origin, numbers)
        kept = at_taylors.recall({part.number for whole in chosen for part in whole.parts}) if at_taylors else set()
        sent = [whole for whole in chosen if not kept.isdisjoint(part.number for part in whole.parts)]
        for whole in chosen:
            if whole not in sent:
                _move(site, whole, target, whole.job.words if keeps else addressed_on(whole.job, origin))
    why = f"stays for {origin}, because"
    return [
        *(f"job {it.job.number} {why} a file moves only while all of its pieces wait: {it.what}" for it in parts),
        *(f"job {it.job.number} {why} Taylor UUCP is just sending it, or has brought it: {it.job.what}" for it in sent),
    ]


def _at_taylors(site: Site, origin: str) -> "Handover | None":
    """What Taylor UUCP has for a neighbour. What left its spool is no longer there to be moved."""
    if not site.has_handed(origin):
        return None
    from . import handover  # (which few moves need)

    return handover.looked(site, origin)


def _expect_neighbour(site: Site, origin: str, target: str) -> None:
    if origin == target:
        raise Failure(USAGE, f"jobs that wait for {origin} need no move to {target}")
    if origin == site.own:
        raise Failure(USAGE, f"{origin} is this site, and one of its jobs may be delivered now: refuse it by uuspool-refuse, and queue it again")


def _chosen(site: Site, origin: str, numbers: set[int]) -> tuple[list[Whole], list[Listed]]:
    """What is to move: all that waits, or what these numbers are of, with files as wholes. And the files of which a part waits."""
    with spool_needed(f"the spool cannot be asked what waits for {origin}"):
        waiting = site.spool.waiting(origin)
    _expect_nowhere_else(site, origin, numbers - {job.number for job in waiting})
    names = {name_of(job) for job in waiting if not numbers or job.number in numbers}
    chosen = [job for job in waiting if name_of(job) in names]
    wholes = list(Whole.all_of(chosen))
    moving = {part.number for whole in wholes for part in whole.parts}
    return wholes, Listed.all_of([job for job in chosen if job.number not in moving])


def _expect_nowhere_else(site: Site, origin: str, numbers: set[int]) -> None:
    """These jobs are gone, and don't wait for another system."""
    for number in sorted(numbers):
        if parcel := site.spool.show(number):
            raise Failure(USAGE, f"job {number} waits for {parcel.job.system}, not for {origin}")


def _move(site: Site, whole: Whole, target: str, words: Sequence[str]) -> None:
    try:
        moves.move(site, whole, target, words)
    except (moves.NotMoved, moves.HalfMoved) as error:
        raise Failure(LATER, f"job {whole.job.number} cannot be moved: {error}") from None


def addressed_on(job: Job, origin: str) -> tuple[str, ...]:
    """The words of mail with the old neighbour before each address. Other words stay."""
    if job.kind != "exec" or job.words[0] != MAIL:
        return job.words
    return (MAIL, *(f"{origin}!{address}" for address in job.words[1:]))
