"""uuspool-expire: refuses each job that has waited for a neighbour for so many days. With -w its user gets a
letter before that, after so many days, that it still waits. The status is 75 if a job can't be refused now, or
a user can't be told.

A run keeps its moment and the greatest number of a job that waited then. A job with a greater number was queued after that
run, whatever its date says, because the clock may have been wrong when it was queued. If a job's date is still to come, the job is as
old as the first run that found it so.

If the clock seems to have jumped since the last run, which would make all jobs old, this run does nothing, and says so
with the status 75."""
from collections.abc import Iterable, Mapping, Sequence

from . import clock, files, moves
from .errors import LATER, USAGE, Failure, spool_needed
from .jobs import Job
from .pieces import name_of
from .refusals import Refuser, forget_warnings, tell, warn
from .session import Session
from .site import Site, enter
from .texts import is_number
from .values import Any, NamedTuple

_USAGE = "usage: uuspool-expire [-w DAYS] DAYS"
_DAY = 86400
_DRIFT = _DAY  # by which a clock may be corrected between two runs, as that of a machine that is paused for the night
_GAP = 90 * _DAY  # between two runs, if the machine was started meanwhile
_LAST = "refused/.expired"  # what is kept of the last run
_MOST_SEEN = 400  # earlier runs that are known, one a day
_MOST_AHEAD = 100_000  # jobs with a date that is still to come, those with the least numbers
_MOST_OF_A_RECORD = 1 << 24  # bytes


class Seen(NamedTuple):
    """What a run saw: the greatest number of the jobs that waited then, or 0."""

    moment: int
    number: int


def run(session: Session, words: Sequence[str]) -> int:
    """The command."""
    days, warned = _read(words)
    site = enter(session)
    session.processes.catch_stops()
    last = _Last.read(site)
    if last.jump is not None:
        last.write(site)
        raise Failure(LATER, f"the clock jumped by {last.jump // _DAY} days since the last run: if it is right now, run this again")
    moves.finish_all(site)
    with spool_needed("the spool cannot be asked what waits"):
        jobs = site.spool.waiting()
    last = last.with_jobs(jobs).with_ahead(jobs, clock.shown(site.settings.zone, last.now))
    last.write(site)
    all_done = [_refuse(site, job, days) for job in older(site, jobs, days, last.seen, last.ahead)]
    if warned is not None:
        all_done += [_warn(site, job, days) for job in older(site, jobs, warned, last.seen, last.ahead)]
    forget_warnings(site, {name_of(job) for job in jobs})
    told = tell(site)
    return told if all(all_done) else LATER


def _read(words: Sequence[str]) -> tuple[int, int | None]:
    match words:
        case ["-w", warned, days] if is_number(warned) and is_number(days):
            return int(days), int(warned)
        case [days] if is_number(days):
            return int(days), None
    raise Failure(USAGE, _USAGE)


class _Last(NamedTuple):
    """What is kept of the last run, as this one has it."""

    now: int
    running: float
    boot: str
    seen: tuple[Seen, ...]  # what the runs until now saw, with moments as the clock would show them that is right now
    jump: int | None  # by how many seconds the clock was set since the last run, if it was
    ahead: Mapping[str, int] = {}  # when a run first found a job with a date that is still to come, by its number and date

    @staticmethod
    def read(site: Site) -> "_Last":
        """If the machine was started since the last run, nobody knows how long that took, and only a long time counts as a
        jump. Time of which nobody knows whether it passed makes no job older."""
        now, running, boot = clock.now(), clock.running(), clock.boot()
        kept = files.read_record(f"{site.folder}/{_LAST}", _MOST_OF_A_RECORD)
        if not isinstance(kept.get("now"), int) or not isinstance(kept.get("running"), float):
            return _Last(now, running, boot, (), None)
        runs_on = kept.get("boot") == boot
        set_by = now - kept["now"] - (int(running - kept["running"]) if runs_on else 0)
        is_jump = not -_DRIFT <= set_by <= (_DRIFT if runs_on else _GAP)
        lost = set_by if is_jump or runs_on else min(0, set_by)
        seen = tuple(it._replace(moment=it.moment + lost) for it in _seen_in(kept))
        ahead = {job: moment + lost for job, moment in _ahead_in(kept).items()}
        return _Last(now, running, boot, seen, set_by if is_jump else None, ahead)

    def with_jobs(self, jobs: Iterable[Job]) -> "_Last":
        """The same with what this run sees. Of the runs of a day only the first is known, and the last of all."""
        before = self.seen
        if len(before) > 1 and before[-1].moment - before[-2].moment < _DAY:
            before = before[:-1]
        now = Seen(self.now, max((job.number for job in jobs), default=0))
        return self._replace(seen=(*before, now)[-_MOST_SEEN:])

    def with_ahead(self, jobs: Iterable[Job], shown: str) -> "_Last":
        """The same with the jobs whose date is still to come, by a clock that shows this. The clock was ahead when they were queued."""
        ahead = [job for job in jobs if _date_of(job) > shown]
        ahead.sort(key=lambda job: job.number)
        return self._replace(ahead={(key := _dated(job)): self.ahead.get(key, self.now) for job in ahead[:_MOST_AHEAD]})

    def write(self, site: Site) -> None:
        """Keeps it for the next run."""
        record = {"now": self.now, "running": self.running, "boot": self.boot, "seen": self.seen, "ahead": self.ahead}
        with site.writing("refused"):
            files.write_record(f"{site.folder}/{_LAST}", record)


def _seen_in(kept: dict[str, Any]) -> list[Seen]:
    """What is kept of earlier runs. (Older versions kept nothing.)"""
    seen = kept.get("seen")
    return [Seen(*it) for it in seen if isinstance(it, list) and [type(word) for word in it] == [int, int]] if isinstance(seen, list) else []


def _ahead_in(kept: dict[str, Any]) -> dict[str, int]:
    """When earlier runs found jobs with a date that was still to come."""
    ahead = kept.get("ahead")
    return {job: moment for job, moment in ahead.items() if type(moment) is int} if isinstance(ahead, dict) else {}


def _date_of(job: Job) -> str:
    return f"{job.day} {job.hour}"


def _dated(job: Job) -> str:
    """A job with its date, since that may be changed (`rejuvenate`), or the number be given again by a new spool."""
    return f"{job.number} {_date_of(job)}"


def older(site: Site, jobs: Sequence[Job], days: int, seen: Iterable[Seen] = (), ahead: Mapping[str, int] = {}) -> list[Job]:
    """The jobs for neighbours that were queued so many days ago, by the site's clock, unless one of these runs since then
    shows that they weren't there yet. Those whose date is still to come are as old as the run that found that. Of a file its newest piece
    counts."""
    since = max(0, clock.now() - days * _DAY)
    before = clock.shown(site.settings.zone, since)
    there = min((it.number for it in seen if it.moment > since), default=None)
    theirs = [job for job in jobs if job.system != site.own]
    queued_since = [job for job in theirs if there is not None and job.number > there]
    dated_since = [job for job in theirs if (ahead[_dated(job)] > since if _dated(job) in ahead else _date_of(job) >= before)]
    newer = {name_of(job) for job in (*queued_since, *dated_since)}
    return [job for job in theirs if name_of(job) not in newer]


def _refuse(site: Site, job: Job, days: int) -> bool:
    with site.alone():
        moves.finish_all(site)
        parcel = site.spool.show(job.number)
        return parcel is None or Refuser(site).refuse(parcel, f"it waited for {job.system} for {days} days, and nobody took it")


def _warn(site: Site, job: Job, days: int) -> bool:
    parcel = site.spool.show(job.number)
    return parcel is None or warn(site, parcel, days)
