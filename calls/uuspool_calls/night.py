"""uuspool-night: calls each neighbour that is due, and delivers what is for this site. Once a day it gives back
the room that the spool's file no longer needs.

So many calls are made at a time, so a neighbour that hangs delays no other. Only errors are printed; the log
has the rest."""
from collections.abc import Sequence
from functools import partial

from . import carriers, cli, deliver, files, options
from .contacts import is_fresh
from .errors import USAGE, Failure, spool_needed
from .processes import NONE_BEGINS, Child, Children, Program, named
from .session import Session
from .site import ROUND, VACUUM, Site, enter

_USAGE = "usage: uuspool-night [-w] [-p MINUTES]"
_MINUTE = 60  # seconds
_DAY = 86_400
_MOST_ROUNDS = 500  # that wait for calls that hang


def run(session: Session, words: Sequence[str]) -> int:
    """The command."""
    minutes, goes_on = _read(words)
    site = enter(session)
    session.processes.catch_stops()
    if goes_on:
        _go_on(site, minutes)
    Night(site).make(minutes)
    return 0


def _read(words: Sequence[str]) -> tuple[int | None, bool]:
    given, rest = options.read(words, "wp:", _USAGE)
    minutes = given.get("p", "")
    if rest or not (minutes.isdecimal() or not minutes):
        raise Failure(USAGE, _USAGE)
    return int(minutes) if minutes else None, "w" in given


def _go_on(site: Site, minutes: int | None) -> None:
    """A round each minute, which waits for no call of an earlier one."""
    words = [] if minutes is None else ["-p", str(minutes)]
    with Children(site.session.processes, _MOST_ROUNDS) as rounds:
        while True:
            if not rounds.start(partial(_begun, site, words)):
                site.session.say(f"{NONE_BEGINS}, so there is no round in this minute")
            rounds.reap(_MINUTE)
            rounds.ended.clear()  # (this goes on for years)


def _begun(site: Site, words: Sequence[str]) -> Child:
    """A round is a program of its own, so that it is the one that is installed then."""
    return Program([f"{site.session.commands}/uuspool-night", *words], site.folder, site.environment).start()


class Night:
    """One round. What it runs goes on from here, since a program in Python takes long to start."""

    def __init__(self, site: Site) -> None:
        self._site, self._own = site, site.own

    def _forked(self, name: str, command: cli.Command, *words: str) -> Child:
        def work() -> int:
            named(name)
            return cli.run(Session(name, self._site.environment), command, words)

        return Child(work)

    def _start(self, children: Children, name: str, command: cli.Command, *words: str) -> None:
        """What can't begin now waits for the next round."""
        if not children.start(partial(self._forked, name, command, *words)):
            self._site.session.say(f"{NONE_BEGINS}: {' '.join((name, *words))} waits for the next round")

    def make(self, minutes: int | None) -> None:
        """Makes the round. It also polls who wasn't called for so many minutes, if some are given, or for those of
        its entry."""
        failed: Failure | OSError | None = None
        with Children(self._site.session.processes, 1) as deliveries:
            self._start(deliveries, "uuspool-deliver", deliver.run)
            try:
                self._make_calls(minutes)
            except (Failure, OSError) as why:  # (No command that works meanwhile is ended for it.)
                failed = why
            deliveries.wait()
        if failed:
            raise failed
        files.touch_if_possible(f"{self._site.folder}/{ROUND}")
        self._vacuum()

    def _make_calls(self, minutes: int | None) -> None:
        with Children(self._site.session.processes, self._site.session.at_once) as calls:
            self._take_back(calls)
            due = self._due()
            self._call(calls, "-n", due)
            self._call(calls, "-np", self._quiet(minutes, due))

    def _vacuum(self) -> None:
        """Once a day, gives back the room that the spool's file no longer needs. (The program knows if there is some.)"""
        mark = f"{self._site.folder}/{VACUUM}"
        if files.is_fresh(mark, _DAY):
            return
        files.touch_if_possible(mark)
        with spool_needed("the spool's file cannot be made shorter"):
            self._site.spool.ask_once("vacuum")

    def _take_back(self, calls: Children) -> None:
        """What Taylor UUCP has and doesn't wait here any more is taken back, also if its neighbour isn't due: Taylor makes calls of its own,
        and answers those of neighbours."""
        if handed := self._site.handed():
            from . import call

            for neighbour in handed:
                self._start(calls, "uuspool-call", call.take_back, neighbour)

    def _call(self, calls: Children, option: str, neighbours: Sequence[str]) -> None:
        """Calls these neighbours. (Most rounds call nobody, so this is loaded late, and once for all calls.)"""
        if neighbours:
            from . import call

            for neighbour in neighbours:
                self._start(calls, "uuspool-call", call.run, option, neighbour)
            calls.wait()

    def _due(self) -> list[str]:
        """The neighbours that are due."""
        with spool_needed("the spool cannot be asked what is due"):
            return [it.system for it in self._site.spool.due() if it.system != self._own]

    def _quiet(self, minutes: int | None, due: Sequence[str]) -> list[str]:
        """The neighbours that may be called now, weren't just called, and weren't called for so many minutes, or
        those of their own."""
        if minutes is None and not carriers.any_polls(self._site.session):
            return []
        with spool_needed("the spool cannot be asked who may be called now"):
            opened = self._site.spool.open_now()
        others = [it for it in opened if it != self._own and it not in due]
        return [it for it in others if self._is_quiet(it, minutes)]

    def _is_quiet(self, neighbour: str, minutes: int | None) -> bool:
        try:
            its = carriers.find(self._site.session, neighbour).poll
        except carriers.NoCarrier:
            return False
        after = minutes if its is None else its
        try:
            return after is not None and not is_fresh(self._site.contacts.find(neighbour).called, after)
        except Failure as why:  # (The others are called.)
            self._site.session.say(str(why))
            return False
