"""By what a neighbour's command leaves the unit of uuspool-night, which confines it: other services that run what the spool's
user says, files that they read for this user, and other processes of this user."""
import os
import pwd
import re
import stat
from collections.abc import Iterator, Sequence

from . import files
from .session import Session, acting_as, user_name
from .values import NamedTuple

_UNIT = "the unit uuspool-night"
_LEAVES = f"by that a neighbour's command leaves {_UNIT}"
_ALIASES = "/etc/aliases"  # of the mailer
_PATHS = re.compile(r'(?<![^\s|:,"])/[^\s,"|]*')  # in a line of it: what it runs, writes or reads
_SCOPE = "/proc/sys/kernel/yama/ptrace_scope"
_CALLED = "uuspool"  # the account that neighbours call by ssh, whose keys are in its home
# What sshd, mailers, logins and systemd read there.
_READ_AT_HOME = ".ssh", ".ssh/authorized_keys", ".ssh/rc", ".forward", ".profile", ".config", ".config/systemd", ".config/systemd/user"


class Scheduler(NamedTuple):
    """A program by which users have something run later, the files that say who may use it, and the folder of what it has."""

    name: str
    allow: str
    deny: str
    kept: str

    def cure(self, user: str) -> str:
        """What keeps a user from it, or nothing if that is so already. (Without the second file Debian's `at` is root's, and
        its `crontab` is for all. A line with a blank or a comment behind the name means nothing to them.)"""
        allowed, denied = files.read_bytes(self.allow), files.read_bytes(self.deny)
        if allowed is not None:
            return f"take the line {user} out of {self.allow}" if user in allowed.decode(errors="replace").split() else ""
        if files.look(self.deny) is None:
            return f"write the line {user} into {self.deny}" if self.name == "crontab" else ""
        return f"add the line {user} to {self.deny}" if denied is not None and user not in denied.decode(errors="replace").split("\n") else ""


CRONTAB = Scheduler("crontab", "/etc/cron.allow", "/etc/cron.deny", "/var/spool/cron/crontabs")
AT = Scheduler("at", "/etc/at.allow", "/etc/at.deny", "/var/spool/cron/atjobs")


def sentences(session: Session, owner: str) -> Iterator[str]:
    """What to do about each."""
    yield from _of_the_manager(session, f"user@{pwd.getpwnam(owner).pw_uid}.service")
    with acting_as(owner):
        found = [*_of_homes(owner), *_of_aliases(owner)]
    yield from found
    yield from _of_schedulers(session, owner)
    if (files.read_bytes(_SCOPE) or b"0").strip() == b"0":
        yield f"Each process of {owner} may enter another one, such as one that sshd, cron or root began, and {_LEAVES}: {_cure_of_entries()}."


def _cure_of_entries() -> str:
    """What keeps processes of a user from each other. (A kernel without Yama has no such setting.)"""
    if files.look(_SCOPE):
        return "sysctl -w kernel.yama.ptrace_scope=1, and let a file in /etc/sysctl.d say kernel.yama.ptrace_scope = 1"
    return "the kernel has no Yama, so begin one that has it, with yama in its list lsm="


def _of_the_manager(session: Session, unit: str) -> Iterator[str]:
    """systemd runs what the user says, once a session of this user begins, or the user asks for it, which logind lets everybody."""
    state = _asked(session, "is-enabled", unit)
    if state not in ("", "masked", "masked-runtime", "not-found"):
        yield f"systemd begins {unit} by a neighbour's call, or if a command asks for it (loginctl enable-linger), and {_LEAVES}: systemctl mask --now {unit}"
    elif state.startswith("masked") and _asked(session, "is-active", unit) == "active":
        yield f"{unit} is masked, but runs still, and {_LEAVES}: systemctl stop {unit}"


def _asked(session: Session, word: str, unit: str) -> str:
    ended = session.run_as(user_name(os.geteuid()), ["systemctl", word, unit])
    return ended.output.decode(errors="replace").strip()


def _accounts(owner: str) -> list[pwd.struct_passwd]:
    """The accounts that are this user: those of neighbours, too."""
    number = pwd.getpwnam(owner).pw_uid
    return [entry for entry in pwd.getpwall() if entry.pw_uid == number]


def _of_schedulers(session: Session, owner: str) -> Iterator[str]:
    """Who may use them, and what they have already. (`crontab -u` takes each name of the caller's number, and `at` the first one.)"""
    names = dict.fromkeys([owner, *(entry.pw_name for entry in _accounts(owner))])
    for scheduler, name in [*((CRONTAB, name) for name in names), (AT, owner)]:
        if session.finds(scheduler.name) and (cure := scheduler.cure(name)):
            yield f"{name} may use {scheduler.name}, and {_LEAVES}: {cure}."
    for name in names:
        if files.look(path := f"{CRONTAB.kept}/{name}"):
            yield f"cron does what {path} says, and {_LEAVES}: write root's lines in it into a file of /etc/cron.d, and type crontab -r -u {name}."
    found = [files.look(f"{AT.kept}/{name}", follows=False) for name in files.names_in(AT.kept)]
    if any(seen and user_name(seen.st_uid) == owner for seen in found):
        yield f"Jobs of at are {owner}'s, and {_LEAVES}: atq lists them, and atrm removes them."


def _of_homes(owner: str) -> Iterator[str]:
    """The homes of the accounts that are this user."""
    for entry in _accounts(owner):
        home = os.path.normpath(entry.pw_dir)
        if not home.startswith("/"):
            continue
        name, reads = entry.pw_name, f"sshd, mailers and logins read files in {home}, the home of the account {entry.pw_name}"
        if (place := _first_writable([home])) and name != _CALLED:
            yield f"{owner} may write {place}, and {reads}: {_LEAVES}. Stop uuspool-night, type usermod -d / {name}, and start it again."
        elif place := place or _first_writable([f"{home}/{it}" for it in _READ_AT_HOME]):
            yield f"{owner} may write {place}, and {reads}: {_LEAVES}. Move it away as root, and have uuspool-setup or an editor of root's make it anew."


def _of_aliases(owner: str) -> Iterator[str]:
    """The programs, files and lists of the mailer's aliases, also of other names, to which a command may send mail."""
    text = (files.read_bytes(_ALIASES) or b"").decode(errors="replace")
    lines = [line for line in text.splitlines() if not line.startswith("#")]
    for path in dict.fromkeys(found for line in lines for found in _PATHS.findall(line)):
        if place := _first_writable([path]):
            yield f"A mailer uses {path}, as {_ALIASES} says, and {owner} may write {place}: {_LEAVES}. Take {path} out of {_ALIASES}, and run newaliases."


def _first_writable(paths: Sequence[str]) -> str:
    """The first of these paths, or of the folders on their ways, that this process may write, or replace in a folder that it may
    write. Nothing if there is none."""
    for path in paths:
        for way in dict.fromkeys((path, os.path.realpath(path))):
            parts = way.split("/")
            for end in range(1, len(parts) + 1):
                place = "/".join(parts[:end]) or "/"
                if os.access(place, os.W_OK, effective_ids=True) and not _holds(place, parts[end : end + 1]):
                    return place
    return ""


def _holds(folder: str, names: Sequence[str]) -> bool:
    """Whether nobody but its owner, who is another user, replaces what has the name in a folder, as in /tmp."""
    its, below = files.look(folder), [files.look(f"{folder}/{name}", follows=False) for name in names]
    is_sticky = its is not None and its.st_mode & stat.S_ISVTX and its.st_uid != os.geteuid()
    return bool(is_sticky) and any(seen is not None and seen.st_uid != os.geteuid() for seen in below)
