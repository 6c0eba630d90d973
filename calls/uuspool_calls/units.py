"""What systemd says of the units of this package: those that should run, and don't."""
import os
from collections.abc import Iterator, Mapping

from .session import Session, user_name

NIGHT = "uuspool-night.service"
_TIMED = "backup", "expire", "metrics", "page"  # each a service, which a timer begins
_SHOWN = "Id", "LoadState", "UnitFileState", "ActiveState", "SubState", "Result"
_Unit = Mapping[str, str]


def sentences(session: Session) -> Iterator[str]:
    """What to do about each. (A unit that nobody enabled need not run.)"""
    found = _shown(session)
    if _is_enabled(found.get(NIGHT, {})):
        yield from _of_the_night(found[NIGHT])
    for name in _TIMED:
        timer, service = found.get(f"uuspool-{name}.timer", {}), found.get(f"uuspool-{name}.service", {})
        if _is_enabled(timer):
            yield from _of_a_timer(timer, service)


def _of_the_night(its: _Unit) -> Iterator[str]:
    if its["SubState"] == "auto-restart":
        yield f"{NIGHT} ends as soon as systemd starts it, so no neighbour is called: journalctl -u {NIGHT} says why."
    elif its["ActiveState"] == "failed":
        yield f"{NIGHT} failed ({its['Result']}), so no neighbour is called: journalctl -u {NIGHT} says why, and systemctl restart {NIGHT} starts it again."
    elif its["ActiveState"] in ("inactive", "deactivating"):
        yield f"{NIGHT} is enabled, but does not run, so no neighbour is called: systemctl start {NIGHT}"


def _of_a_timer(timer: _Unit, service: _Unit) -> Iterator[str]:
    name, begun = timer["Id"], timer["Id"].replace(".timer", ".service")
    if timer["ActiveState"] != "active":
        yield f"{name} is enabled, but does not run, so nothing starts {begun}: systemctl restart {name}"
    if service.get("LoadState") == "masked":
        yield f"{begun} is masked, so {name} starts nothing: systemctl unmask {begun}, or systemctl disable --now {name}."
    elif service.get("ActiveState") == "failed":
        yield f"{begun} failed when it ran last ({service['Result']}): journalctl -u {begun} says why, and systemctl start {begun} runs it now."


def _is_enabled(its: _Unit) -> bool:
    return its.get("UnitFileState", "").startswith("enabled")


def _shown(session: Session) -> dict[str, _Unit]:
    """What systemd knows of each, by its name. Nothing if it doesn't answer."""
    names = [NIGHT, *(f"uuspool-{name}.{kind}" for name in _TIMED for kind in ("timer", "service"))]
    ended = session.run_as(user_name(os.geteuid()), ["systemctl", "show", f"--property={','.join(_SHOWN)}", *names])
    parts = ended.output.decode(errors="replace").split("\n\n") if not ended.status else []
    units = [dict(line.partition("=")[::2] for line in part.splitlines()) for part in parts]
    return {its["Id"]: its for its in units if its.keys() >= {*_SHOWN}}
