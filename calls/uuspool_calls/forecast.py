"""What a call would carry, and how long that takes."""
from collections import defaultdict
from collections.abc import Sequence

from . import carriers
from .errors import NOT_SET_UP, Failure
from .jobs import Job
from .site import Site
from .traffic import rate_of, shown_jobs, shown_size, shown_time


def tell(site: Site, neighbour: str, jobs: Sequence[Job]) -> None:
    """Prints it. What waits at the neighbour isn't known here."""
    try:
        carrier = carriers.find(site.session, neighbour)
    except carriers.NoCarrier as why:
        raise Failure(NOT_SET_UP, str(why)) from None
    limit = carrier.limit or site.session.call_limit
    contact, say = site.contacts.find(neighbour), site.session.print
    total = sum(job.size for job in jobs)
    say(f"{neighbour}: {shown_jobs(len(jobs))}, {shown_size(total)} would go")
    by_grade: defaultdict[str, list[Job]] = defaultdict(list)
    for job in jobs:
        by_grade[job.grade].append(job)
    for grade in sorted(by_grade):
        say(f"grade {grade}: {shown_jobs(len(by_grade[grade]))}, {shown_size(sum(job.size for job in by_grade[grade]))}")
    if (contact.broken or contact.begun) and carrier.answers_at_once(site.session):
        say(f"The last call broke, so this one first asks {neighbour} which jobs came.")
    rate = rate_of(contact)
    if not rate:
        say("No call has carried enough to say how long this takes.")
        return
    seconds = total / rate
    say(f"It takes about {shown_time(seconds)} at {shown_size(rate)} a second, as the last calls did, and longer if jobs come.")
    if seconds > limit:
        say(f"A call may last {shown_time(limit)}, so this needs {-int(-seconds // limit)} calls.")
