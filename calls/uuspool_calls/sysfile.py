"""uuspool-sys: makes the systems of the spool those of a sys file. A system that is dropped is forgotten, with what
came from it. It prints what changes: `defines NAME`, `changes NAME`, `drops NAME`. With -n it changes nothing.
It warns of `max-retries 0`. The status is 1 if a line was skipped, or if a system can't be dropped because jobs wait
for it."""
import os
import re
import tempfile
from collections.abc import Sequence

from . import files
from .errors import LATER, USAGE, Failure, SpoolError, spool_needed
from .processes import Ended, Program
from .session import Session
from .site import Site, enter
from .texts import lines_of, one_line, plain

_USAGE = "usage: uuspool-sys [-n] [FILE]"
_NO_RETRY = re.compile(rb"\s*max-retries\s+0+\s*(#.*)?\Z", re.IGNORECASE)


def run(session: Session, words: Sequence[str]) -> int:
    """The command."""
    only_shows = words[:1] == ["-n"]
    names = words[1:] if only_shows else words
    if len(names) > 1:
        raise Failure(USAGE, _USAGE)
    given = names[0] if names and names[0] else f"{session.etc}/sys"
    text = files.read_bytes(given) if os.path.isfile(given) else None
    if text is None:
        raise Failure(1, f"{given} is not a file that can be read")
    given = os.path.realpath(given)
    site = enter(session, [*(["-n"] if only_shows else []), given])
    session.processes.catch_stops()
    wanted, skipped = Reader(site, given).meaning(text)
    if not wanted:
        raise Failure(1, f"{given} defines no system, so nothing changes")
    for number in without_retries(text):
        session.say(f"{given}: line {number}: {WITHOUT_RETRIES}")
    if site.own not in wanted:
        session.say(f"{given}: it does not define {site.own}, this site's own name, so nothing can come here")
    all_dropped = _change(site, given, wanted, only_shows)
    return 0 if all_dropped and not skipped else 1


# What a line says that Taylor UUCP reads in another way.
WITHOUT_RETRIES = (
    "max-retries 0: here it allows no failed call, so after each one the system waits a day at least; in Taylor UUCP it sets no "
    "limit. Leave the line out, or use max-retries 1000000"
)


def without_retries(text: bytes) -> list[int]:
    """The lines of a sys file that allow no failed call."""
    return [number for number, line in enumerate(lines_of(text), 1) if _NO_RETRY.match(line)]


def definitions(text: str) -> dict[str, str]:
    """The definition of each system in an output of `systems`."""
    found: dict[str, str] = {}
    name = ""
    for line in text.splitlines(keepends=True):
        if line.startswith("system "):
            name = line.split()[1]
        found[name] = found.get(name, "") + line
    return found


class Reader:
    """What a sys file means, in the form that `systems` prints. A temporary spool reads it."""

    def __init__(self, site: Site, given: str) -> None:
        self._site, self._given = site, given

    def meaning(self, text: bytes) -> tuple[dict[str, str], bool]:
        """The definitions in the file, and whether a line was skipped."""
        with tempfile.TemporaryDirectory(prefix="uuspool.work.") as folder:
            settings = f"{folder}/uuspool.toml"
            files.replace(settings, f'name = "{self._site.own}"\nspool = "{folder}/spool.db"\n'.encode())
            self._expect_done(self._run(settings, "init", b""), LATER)
            loaded = self._expect_done(self._run(settings, "load", text), 1)
            systems = self._expect_done(self._run(settings, "systems", b""), LATER)
        return definitions(systems.output.decode()), self._tell_skipped(loaded.output, lines_of(text))

    def _expect_done(self, ended: Ended, status: int) -> Ended:
        if ended.status:
            raise Failure(status, f"{self._given}: {one_line(ended.output + ended.errors)}")
        return ended

    def _run(self, settings: str, subcommand: str, given: bytes) -> Ended:
        words = [self._site.session.program, "-c", settings, subcommand]
        return self._site.session.processes.run(Program(words, self._site.folder, self._site.environment), given)

    def _tell_skipped(self, output: bytes, lines: Sequence[bytes]) -> bool:
        numbers = [int(line.split()[1]) for line in lines_of(output) if line.startswith(b"skipped ")]
        for number in numbers:
            text = plain(lines[number - 1])
            self._site.session.say(f"{self._given}: line {number}: skipped, since its keyword is unknown: {text}")
        return bool(numbers)


def _change(site: Site, given: str, wanted: dict[str, str], only_shows: bool) -> bool:
    """Defines, changes and drops systems. Whether all could be dropped."""
    with spool_needed("the spool cannot be asked for its systems"):
        there = definitions(site.spool.systems())
    changed = [name for name, text in wanted.items() if there.get(name) != text]
    for name in changed:
        site.session.print(f"{'changes' if name in there else 'defines'} {name}")
    if changed and not only_shows:
        with spool_needed(f"{given} cannot be loaded"):
            site.spool.ask("load", given="".join(wanted[name] for name in changed).encode())
    dropped = [_drop(site, name, only_shows) for name in there if name not in wanted]
    return all(dropped)


def _drop(site: Site, name: str, only_shows: bool) -> bool:
    site.session.print(f"drops {name}")
    if not only_shows:
        try:
            site.spool.ask("drop", "--", name)
        except SpoolError as error:
            site.session.say(f"{name} stays: {error}")
            return False
    if _has_key(site, name):
        site.session.say(f"{name} has a key for seals: give it another one before it is defined again, because its old bundles are no longer known")
    return True


def _has_key(site: Site, name: str) -> bool:
    if not site.settings.seals:
        return False
    from .seals import KeyFiles  # (takes long to load, and few sites seal)

    return bool(KeyFiles(site.settings.seals, "").keys(name))
