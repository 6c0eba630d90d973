"""What is kept about jobs that can't be delivered yet."""
from collections.abc import Mapping

from . import files
from .jobs import Job
from .values import Any, NamedTuple

_FIRST_WAIT, _MOST_WAIT = 600, 14400
_MOST_DOUBLINGS = 10
LAST = ".last"  # ends the name of what is kept of the last piece, behind the number of the job that queues it
DAYS = 5  # after which a job that always failed is refused
_LEAST_TRIES = 20  # before that: a clock that jumps is none
_TRIES = 34  # in these days


class Tries(NamedTuple):
    """How often a job failed, when it is tried again, when it was first tried, and why it failed. If it was delivered, and
    the spool couldn't note that, what was. A record is about one job, and has the line that the job had first, and the word of
    its spool."""

    job: str
    word: str
    failed: int
    next: int
    first: int
    why: str = ""
    came: str = ""
    is_onward: bool = False  # whether that was queued for another system
    all_but_one: bool = False  # whether all pieces but the last one were queued for a neighbour
    mark: str = ""  # of these pieces, once the first one may be queued
    restored: str = ""  # by which it is known whether the spool was put back since

    @staticmethod
    def read(folder: str, word: str, job: Job, now: int) -> "Tries":
        """The record of a job in the spool of this word, or that of a job that wasn't tried."""
        record = files.read_record(f"{folder}/{job.number}")
        try:
            if _is_about(record, word, job):
                failed, then, first = (int(record[it]) for it in ("failed", "next", "first"))
                tries = Tries(record["job"], word, failed, then, first, str(record["why"]), str(record.get("came", "")))
                tries = tries._replace(is_onward=record.get("is_onward") is True, all_but_one=record.get("all_but_one") is True)
                return tries._replace(mark=str(record.get("mark", _mark_of_before(record["job"]))), restored=str(record.get("restored", "")))
        except (KeyError, TypeError, ValueError):
            pass
        return Tries(job.line, word, 0, 0, now)

    def of(self, job: Job) -> Job:
        """The job with the moment that it had when it was first tried, by which a command may know it."""
        then = Job.read(self.job)
        return job._replace(day=then.day, hour=then.hour)

    def is_later(self, now: int) -> bool:
        """Whether it isn't tried yet. Not if the clock was set back."""
        return now < self.next <= now + _MOST_WAIT

    def is_old(self, now: int) -> bool:
        """Whether it failed for too long. If the clock was ahead at the first try, the tries say that alone."""
        if now < self.first:
            return self.failed >= _TRIES
        return now - self.first > DAYS * 86400 and self.failed >= _LEAST_TRIES

    def after_failure(self, why: str, now: int) -> "Tries":
        """The record after one more try: the next is twice as late as this one was."""
        pause = min(_FIRST_WAIT << min(self.failed, _MOST_DOUBLINGS), _MOST_WAIT)
        return self._replace(failed=self.failed + 1, next=now + pause, why=why)

    def write(self, folder: str, number: int) -> None:
        """Keeps the record."""
        files.write_record(f"{folder}/{number}", self._asdict())


def _is_about(record: Mapping[str, Any], word: str, job: Job) -> bool:
    """Whether a record is about a job, whose grade may have changed (`regrade`), and its moment, too (`rejuvenate`, or another
    rule of the site's clock). A record of before, which has no word of a spool, is about the job of this moment."""
    then = Job.read(str(record["job"]))
    is_here = word != "" and record.get("word") == word
    return _lasting(then) == _lasting(job) and (is_here or (then.day, then.hour) == (job.day, job.hour))


def _mark_of_before(line: str) -> str:
    """The mark of pieces that an older version may have queued for a job."""
    job = Job.read(line)
    return f"{job.number}-{job.day}-{job.hour}"


def _lasting(job: Job) -> Job:
    return job._replace(grade="", day="", hour="", line="")


def forget(folder: str, number: int) -> None:
    """Forgets the record of a job, and the last piece that it queues."""
    for end in "", LAST:
        files.forget(f"{folder}/{number}{end}")
