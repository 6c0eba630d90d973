"""uuspool-refuse: refuses a job that waits, for any system, or queues one that was refused again."""
import os
from collections.abc import Sequence

from . import files, moves, options, records, turn
from .deliver import LOCK, Deliverer
from .errors import LATER, USAGE, Delay, Failure, spool_needed
from .jobs import Parcel
from .refusals import WAITING, Refuser, tell
from .session import Session
from .site import Site, enter
from .texts import is_name, is_number

_USAGE = "usage: uuspool-refuse NUMBER WHY.. | -q NAME SYSTEM"
_MOST = 1 << 30  # bytes of a job that is kept
_KINDS = ("exec", "send", "request")


def run(session: Session, words: Sequence[str]) -> int:
    """The command."""
    given, rest = options.read(words, "q:", _USAGE)
    if "q" in given:
        return _queue_again(session, given["q"], rest)
    if len(words) < 2 or not is_number(words[0]):
        raise Failure(USAGE, _USAGE)
    site = enter(session)
    session.processes.catch_stops()
    number = int(words[0])
    if not _refuse(site, _parcel(site, number), " ".join(words[1:])):
        return LATER
    records.forget(f"{site.folder}/deliver", number)
    return tell(site)


def _parcel(site: Site, number: int) -> Parcel:
    if parcel := site.spool.show(number):
        return parcel
    raise Failure(1, f"there is no job {number}")


def _refuse(site: Site, parcel: Parcel, why: str) -> bool:
    """A piece that came here is refused with what came before. What is being delivered isn't refused, nor what is delivered."""
    number = parcel.job.number
    if parcel.job.system != site.own:
        with site.alone():
            moves.finish_all(site)
            return Refuser(site).refuse(_parcel(site, number), why)
    with site.lock(f"deliver/{number}{LOCK}") as lock, site.spool.keeping(lock):
        if not lock.take():
            raise Failure(LATER, f"job {number} is being delivered: repeat this if it still waits then")
        deliverer, parcel = Deliverer(site), _parcel(site, number)
        try:
            if deliverer.has_come(parcel):
                raise Failure(LATER, f"job {number} is delivered, and the spool could not note that yet: uuspool-deliver {number} notes it")
            return deliverer.give_up(parcel, why) == 0
        except Delay as delay:
            raise Failure(LATER, f"job {number} cannot be refused now, and waits: {delay}") from None


def _queue_again(session: Session, name: str, systems: Sequence[str]) -> int:
    """Queues what is kept of a refused job for a system, as its user. It stays kept. (A stranger chose its words.)"""
    if len(systems) != 1 or not is_name(systems[0]) or not is_name(name) or name.startswith("."):
        raise Failure(USAGE, _USAGE)
    site = enter(session)
    path = f"{site.folder}/refused/{name}"
    if name.endswith(WAITING):
        raise Failure(LATER, f"{path}: this job may still wait: call or deliver first")
    if files.look(f"{path}.why", follows=False):  # (Its first line is the job, so the next one would be a stranger's.)
        raise Failure(LATER, f"{path} was kept by version 1.0.0, without the line that says why: queue it again by hand")
    parcel = _kept(path)
    job = parcel.job
    with spool_needed(f"{path} can't be queued for {systems[0]}"):
        said = site.spool.ask_once(f"--as={job.user}", job.kind, f"-g{job.grade}", "--", systems[0], *job.words, given=parcel.data)
    session.print(said.decode().strip())
    return 0


def _kept(path: str) -> Parcel:
    """A job that is kept, behind the line that says why it was refused."""
    try:
        with files.closing(turn.opened(path, os.O_RDONLY, any_names=True)) as handle:
            size = os.fstat(handle).st_size
            text = os.pread(handle, size, 0) if size <= _MOST else b""
        parcel = Parcel.read(text.partition(b"\n")[2])
        if parcel.job.kind not in _KINDS:
            raise ValueError
        return parcel
    except FileNotFoundError:
        raise Failure(1, f"there is no {path}") from None
    except ValueError:
        raise Failure(LATER, f"{path} is not a job as uuspool keeps one") from None
