"""A text of figures for the textfile collector of Prometheus's node exporter."""
from collections.abc import Callable, Iterator, Sequence

from .figures import Figures, Neighbour
from .values import NamedTuple

_SITE, _NEIGHBOUR = "site", "neighbour"


class _Of(NamedTuple):
    """A figure: its name, what it says, and its value."""

    name: str
    what: str
    value: Callable[[Neighbour, Figures], int | None]  # None if there is none


_OF_NEIGHBOURS = (
    _Of("jobs", "Jobs that wait.", lambda it, site: it.jobs),
    _Of("job_bytes", "Bytes of the jobs that wait.", lambda it, site: it.size),
    _Of("oldest_job_timestamp_seconds", "When the oldest job was queued.", lambda it, site: it.oldest if it.jobs else None),
    _Of("failed_calls", "Calls that failed in a row.", lambda it, site: it.failed),
    _Of("last_call_timestamp_seconds", "When the last call ended.", lambda it, site: it.called or None),
    _Of("wait_seconds", "Seconds for which it is left alone after a call.", lambda it, site: max(0, it.free - site.now) if it.called <= site.now else 0),
    _Of("held", "Whether no night calls it.", lambda it, site: int(it.held) if not it.odd else None),
)
_OF_SITE: tuple[tuple[str, str, Callable[[Figures], int | None]], ...] = (
    ("up", "Whether the spool can be asked.", lambda it: 1),
    ("delayed_jobs", "Jobs for this site that could not be delivered yet.", lambda it: it.delayed),
    ("refused_jobs", "Jobs that were refused for good and are kept.", lambda it: it.refused),
    ("untold_jobs", "Refused jobs whose users were not told yet.", lambda it: it.untold),
    ("spool_bytes", "Bytes of the spool's files.", lambda it: it.spool),
    ("used_bytes", "Bytes of the spool's file that aren't free for new jobs.", lambda it: it.used),
    ("limit_bytes", "Bytes of the spool's file beyond which nothing is added.", lambda it: it.limit or None),
    ("free_bytes", "Bytes that are free on the spool's disk.", lambda it: it.room),
    ("last_round_timestamp_seconds", "When uuspool-night made its last round.", lambda it: it.round or None),
)


def text(figures: Figures) -> str:
    """The figures of a site."""
    parts = [_part(name, what, [((_SITE, figures.own),)], [value(figures)]) for name, what, value in _OF_SITE]
    labels = [((_SITE, figures.own), (_NEIGHBOUR, it.name)) for it in figures.neighbours]
    for of in _OF_NEIGHBOURS:
        parts.append(_part(of.name, of.what, labels, [of.value(it, figures) for it in figures.neighbours]))
    return "".join(parts)


def text_of_failure(own: str) -> str:
    """That the spool of a site can't be asked."""
    name, what, _ = _OF_SITE[0]
    return _part(name, what, [((_SITE, own),)], [0])


def _part(name: str, what: str, labels: Sequence[Sequence[tuple[str, str]]], values: Sequence[int | None]) -> str:
    lines = list(_lines(name, labels, values))
    return "\n".join([f"# HELP uuspool_{name} {what}", f"# TYPE uuspool_{name} gauge", *lines, ""]) if lines else ""


def _lines(name: str, labels: Sequence[Sequence[tuple[str, str]]], values: Sequence[int | None]) -> Iterator[str]:
    for its, value in zip(labels, values):
        if value is not None:
            pairs = ",".join(f'{key}="{_escaped(word)}"' for key, word in its)
            yield f"uuspool_{name}{{{pairs}}} {value}"


def _escaped(word: str) -> str:
    return word.replace("\\", "\\\\").replace('"', '\\"').replace("\n", "\\n")
