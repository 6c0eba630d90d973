"""uuspool-setup --from-taylor CARRIER [NAME..]: takes the neighbours of Taylor UUCP's sys file, or those with these
names, over into this site, with the carrier `uucico` or `taylor`. What an operator wrote here stays. If something of
that is there, nothing changes, and it prints what would; with -k it leaves that as it is, and adds the rest.

It names the lines of Taylor's file whose meaning is lost, and prints what waits in Taylor's spool."""
import os
from collections.abc import Callable, Sequence
from typing import Protocol

from . import files, options
from .carriers import BY_BUNDLES, BY_JOBS, NO_CALL, TAYLORS, entry_of
from .errors import NOT_SET_UP, USAGE, Failure
from .handover import handed_in
from .session import Session, acting_as
from .site import find_from_anywhere, owner_of
from .taylor import Taylor
from .taylorsys import Line, SysFile, System, lines_in
from .texts import is_name, printable
from .values import NamedTuple

_USAGE = "usage: uuspool-setup --from-taylor [-k] uucico|taylor [NAME..]"
_NODENAMES = ("nodename", "hostname", "uuname")
_CONFIG, _SYS = "/etc/uucp/config", "/etc/uucp/sys"


class Definer(Protocol):
    """What sets up one neighbour."""

    @property
    def owner(self) -> str:
        """The spool's user."""

    def is_defined(self) -> bool:
        """Whether the neighbour is a system of the spool, or of the sys file."""

    def define(self, text: str = "") -> None:
        """Defines the neighbour, and the site itself."""

    def write_entry(self, text: str) -> None:
        """Writes how the neighbour is called."""


class Plan(NamedTuple):
    """What is to be done about a neighbour."""

    system: System
    text: str
    entry: str  # its line, or nothing if it calls here
    is_defined: bool
    is_called: bool  # there is such an entry

    @property
    def is_new(self) -> bool:
        """Whether nothing that is there stands in its way."""
        return not self.is_defined and not (self.entry and self.is_called)


def run(session: Session, words: Sequence[str], setup_of: Callable[[str], Definer]) -> int:
    """The command. The status is 1 if something is there, and nothing was changed."""
    given, rest = options.read(words, "k", _USAGE)
    carrier, *names = rest or [""]
    if carrier not in TAYLORS:
        raise Failure(USAGE, _USAGE)
    files_of_taylor = Files.read(session)
    for name in names:
        if name not in files_of_taylor.systems():
            raise Failure(USAGE, f"{' '.join(files_of_taylor.paths)} defines no system {name}")
    over = TakeOver(session, files_of_taylor, carrier, setup_of)
    over.tell_lost()
    status = over.carry_out(names, "k" in given)
    over.tell_own()
    over.tell_waiting(names)
    return status


class Files(NamedTuple):
    """Taylor's configuration, and its sys files."""

    config: tuple[Line, ...]
    paths: tuple[str, ...]
    files: tuple[SysFile, ...]

    @staticmethod
    def read(session: Session) -> "Files":
        """What Taylor's files say."""
        config = tuple(_lines(session.environment.get("UUCICO_CONFIG") or _CONFIG) or ())
        paths = tuple(word for line in config if line.keyword == "sysfile" for word in line.words[1:]) or (_SYS,)
        texts = [files.read_bytes(path) for path in paths]
        if None in texts:
            raise Failure(NOT_SET_UP, f"there is no readable file {paths[texts.index(None)]}, in which Taylor UUCP has its systems")
        return Files(config, paths, tuple(SysFile.read((text or b"").decode(errors="surrogateescape")) for text in texts))

    def systems(self) -> dict[str, tuple[System, tuple[Line, ...]]]:
        """The systems by their names, each with the timetables that it may use."""
        tables = tuple(line for line in self.config if line.keyword == "timetable")
        return {system.name: (system, (*tables, *file.timetables)) for file in self.files for system in file.systems}

    def nodename(self) -> str:
        """The site's name, if it has one there."""
        names = [line.words[1] for line in self.config if line.keyword in _NODENAMES and len(line.words) > 1]
        return names[-1] if names else ""


def _lines(path: str) -> list[Line]:
    return list(lines_in((files.read_bytes(path) or b"").decode(errors="surrogateescape")))


class TakeOver:
    """Neighbours that are taken over."""

    def __init__(self, session: Session, from_files: Files, carrier: str, setup_of: Callable[[str], Definer]) -> None:
        self._session, self._files, self._carrier, self._setup_of = session, from_files, carrier, setup_of
        self._own = find_from_anywhere(session).name
        self._plans: list[Plan] = []
        self._owner = ""

    def tell_lost(self) -> None:
        """Prints the lines whose meaning is lost."""
        for path, file in zip(self._files.paths, self._files.files):
            for number, line, why in file.lost(self._carrier == BY_BUNDLES):
                self._session.print(f"{path}: line {number}: {printable(line)}: its meaning is lost: {why}")

    def carry_out(self, names: Sequence[str], keeps: bool) -> int:
        """Writes what isn't there, unless something is there and nobody said that it stays."""
        systems = self._files.systems()
        setups = {name: self._setup_of(name) for name in names or systems if name != self._own}
        self._plans = [self._plan(*systems[name], setup) for name, setup in setups.items()]
        is_dry = not keeps and not all(plan.is_new for plan in self._plans)
        for plan in self._plans:
            setup = setups[plan.system.name]
            self._owner = setup.owner
            self._define(plan, setup, is_dry)
            self._write_entry(plan, setup, is_dry)
        if is_dry:
            self._session.print("Nothing was changed, since some of it is there: with -k it stays, and the rest is added.")
        return 1 if is_dry else 0

    def _plan(self, system: System, tables: Sequence[Line], setup: Definer) -> Plan:
        calls_here, hands_jobs = system.is_never_called, self._carrier == BY_JOBS
        line = self._carrier if not calls_here else f"{self._carrier} {NO_CALL}" if hands_jobs else ""
        text = system.text(tables, opened=calls_here and hands_jobs)
        return Plan(system, text, line, setup.is_defined(), os.path.lexists(entry_of(self._session, system.name)))

    def _define(self, plan: Plan, setup: Definer, is_dry: bool) -> None:
        if plan.is_defined:
            self._session.print(f"{plan.system.name}: is defined here, and stays so")
        elif is_dry:
            self._session.print(f"{plan.system.name}: would be defined here: {'; '.join(plan.text.splitlines())}")
        else:
            setup.define(plan.text)

    def _write_entry(self, plan: Plan, setup: Definer, is_dry: bool) -> None:
        name = plan.system.name
        if not plan.entry:
            self._session.print(f"{name}: calls here: its login shell is uucico-login")
        elif plan.is_called:
            self._session.print(f"{name}: {entry_of(self._session, name)} is there, and stays")
        elif is_dry:
            self._session.print(f"{name}: would be called by the line {plan.entry}")
        else:
            setup.write_entry(plan.entry)
            self._session.print(f"{name}: is called by the line {plan.entry}")

    def tell_own(self) -> None:
        """Prints another name by which Taylor knows this site, and what its sys file has to say from now on."""
        nodename = self._files.nodename()
        if nodename not in ("", self._own):
            self._session.print(f"Neighbours know this site as {nodename}, Taylor UUCP's nodename, and here it is {self._own}: give both one name.")
        called = [plan.system for plan in self._plans if plan.entry and not plan.entry.endswith(NO_CALL)]
        if held := [system.name for system in called if not system.is_always_called]:
            self._session.print(
                f"From now on Taylor's sys file needs 'time any', and no success-wait, for {' '.join(held)}: the times here say when a call is due."
            )

        if open_ones := [plan.system.name for plan in self._plans if plan.system.may_debug]:
            self._session.print(
                f"Taylor's sys file needs 'max-remote-debug none' for {' '.join(open_ones)}: without it a call turns Taylor's debugging on, and fills the disk."
            )

    def tell_waiting(self, names: Sequence[str]) -> None:
        """Prints what waits in Taylor's spool, but for what this site gave it. It goes with Taylor's next call. (Nothing queues it here instead:
        a call that goes on may be sending it, or a stop may leave it in both spools, and then it comes twice.)"""
        found = find_from_anywhere(self._session)
        owner = self._owner or owner_of(found)
        waiting = [job for job in Taylor(self._session, owner=owner).waiting() if not names or job.system in names]
        systems = filter(is_name, {job.system for job in waiting})
        with acting_as(owner):
            ours = [it.id for system in systems for it in handed_in(f"{found.folder}/taylor/{system}")]
        jobs = [job for job in waiting if job.id not in ours]  # (Those wait here, too.)
        if jobs:
            self._session.print("What waits in Taylor's spool goes with Taylor's next call:")
        for job in jobs:
            self._session.print(printable(f"{job.id} {job.user} {job.what}"))
