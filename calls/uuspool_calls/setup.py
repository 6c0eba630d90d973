"""uuspool-setup NAME CARRIER WORD..: makes this site call a neighbour, and defines it if the sys file doesn't.
uuspool-setup NAME key - | KEY..: lets a neighbour, which has this public key, or that of standard input, call here by ssh.
uuspool-setup --from-taylor CARRIER: takes over the neighbours of Taylor UUCP (`fromtaylor.py`).
uuspool-setup NAME seal [- | none]: gives a neighbour a key with which bundles are sealed: a new one, or with `-` the one
of standard input. With `none` its bundles aren't sealed.

For ssh it makes a key and keeps the host's, and prints the line to run at the neighbour. The keys of neighbours
are in the account `uuspool`, which has the number of the spool's user, so that user's shell doesn't matter. root
runs this, or the spool's user. For the latter, and for a second site of the machine, it prints the line of a key instead
of adding it: sshd gives a command no variable, so that account is the first site's."""
import contextlib
import os
import pwd
import re
import shlex
import stat
from collections.abc import Sequence
from functools import partial

from . import carriers, files, fromtaylor, seals, settings
from .errors import LATER, NOT_SET_UP, USAGE, Failure
from .processes import Ended, Program
from .session import ETC, Session, acting_as, user_name
from .site import find_from_anywhere, has_bytes, owner_of
from .texts import is_name, lines_of, printable
from .values import Any

_USAGE = (
    "usage: uuspool-setup NAME ssh USER@HOST [OPTION..] | NAME folder FOLDER | NAME command PROGRAM.. | "
    "NAME uucico | NAME taylor [--no-call] | NAME key - | NAME key KEY.. | NAME seal [- | none] | --from-taylor [-k] uucico|taylor [NAME..]"
)
_ACCOUNT = "uuspool"
_KINDS = "(ssh|ecdsa|sk)-"
_MOST_OF_A_KEY = 1 << 14  # bytes
_READ = os.O_RDONLY | os.O_NOFOLLOW | os.O_NONBLOCK | os.O_NOCTTY | os.O_CLOEXEC


def run(session: Session, words: Sequence[str]) -> int:
    """The command."""
    if words[:1] == ["--from-taylor"]:
        return fromtaylor.run(session, words[1:], partial(Setup, session))
    if len(words) < 2 or not is_name(words[0]):
        raise Failure(USAGE, _USAGE)
    name, carrier, *rest = words
    if carrier == "seal":
        Setup(session, name).seal(rest)
        return 0
    if carrier == "key":
        rest = _key_in(session) if rest == ["-"] else rest
        _expect_key(rest)
    elif not is_name(carrier) or not os.path.isfile(f"{session.library}/carriers/{carrier}"):
        known = " ".join(files.names_in(f"{session.library}/carriers"))
        raise Failure(USAGE, f"there is no carrier {carrier}: they are {known}")
    elif carrier == "ssh" and not rest:
        raise Failure(USAGE, f"the host is missing: uuspool-setup {name} ssh USER@HOST")
    setup = Setup(session, name)
    setup.define()
    if carrier == "key":
        setup.add_key(rest[0], rest[1])
    else:
        setup.call_by(carrier, rest)
    return 0


def _key_in(session: Session) -> list[str]:
    """The words of the only line of standard input. (A neighbour wrote it, and root's shell mustn't read it.)"""
    text = session.processes.read_input(0, _MOST_OF_A_KEY, session.call_limit) or b""
    lines = text.decode(errors="replace").splitlines()
    return lines[0].split() if len(lines) == 1 else []


def _expect_key(words: Sequence[str]) -> None:
    if not re.match(_KINDS, words[0] if words else ""):
        raise Failure(USAGE, f"a public key begins with its kind, such as ssh-ed25519: {printable(' '.join(words))}")
    if not _is_key(words):
        raise Failure(USAGE, f"this is no public key: {printable(' '.join(words))}")


def _is_key(words: Sequence[str]) -> bool:
    """Whether these begin with the kind of a public key, and the key."""
    kind, key = [*words, "", ""][:2]
    return bool(re.match(_KINDS, kind) and re.fullmatch("[a-z0-9@.-]+", kind) and re.fullmatch("[A-Za-z0-9+/=]+", key))


class Setup:
    """Sets up a neighbour of the site."""

    def __init__(self, session: Session, name: str) -> None:
        self._session, self._name, self._etc = session, name, session.etc
        found = find_from_anywhere(session)
        if not has_bytes(found.spool):
            raise Failure(NOT_SET_UP, f"there is no spool {found.spool}: uuspool init makes it")
        self._found, self._owner, self._own = found, owner_of(found), found.name
        if name == self._own:
            raise Failure(USAGE, f"{name} is this site's own name")

    @property
    def owner(self) -> str:
        """The spool's user."""
        return self._owner

    # ---- systems

    def is_defined(self) -> bool:
        """Whether the neighbour is a system of the spool, or of the sys file."""
        return bool(self._systems(self._name)) or self._has_line(self._name)

    def _has_line(self, system: str) -> bool:
        return any(line.split()[:2] == ["system", system] for line in self._sys_file().splitlines())

    def define(self, definition: str = "") -> None:
        """Both names have to be systems; the site's own is for what comes here. No other system changes. If
        the file has no system yet, it first gets those of the spool."""
        path = f"{self._etc}/sys"
        if not os.path.lexists(path):
            self._put(path, "")
        if not re.search(r"(?m)^\s*system", self._sys_file()):
            self._add(self._systems())
        for system in self._own, self._name:
            text = self._systems(system)
            if not text:
                text = definition if definition and system == self._name else f"system {system}\ntime Any\n"
                self._ask("load", given=text, otherwise=Failure(LATER, f"{system} cannot be defined"))
                self._session.print(f"defines {system}")
                text = self._systems(system)
            if not self._has_line(system):
                self._add(text)

    def _sys_file(self) -> str:
        return (files.read_bytes(f"{self._etc}/sys") or b"").decode(errors="surrogateescape")

    def _systems(self, system: str = "") -> str:
        words = ["systems", *([f"-s{system}"] if system else [])]
        return self._ask(*words, otherwise=Failure(LATER, "the spool cannot be asked for its systems: try again"))

    def _ask(self, *words: str, otherwise: Failure, given: str = "") -> str:
        ended = self._session.run_as(self._owner, [self._session.program, *words], given.encode())
        if ended.status:
            self._show(ended.errors)
            raise otherwise
        return ended.output.decode()

    def _show(self, errors: bytes) -> None:
        """Prints what a program of the spool's user said, who may have chosen a name in it. root's terminal mustn't obey it."""
        os.write(2, "".join(f"{printable(line)}\n" for line in lines_of(errors)).encode())

    def _add(self, text: str) -> None:
        """Adds a text to the sys file. An editor may have left its last line without an end."""
        before = self._sys_file()
        self._append(f"{self._etc}/sys", ("\n" if before and not before.endswith("\n") else "") + text)

    def _append(self, path: str, text: str) -> None:
        try:
            with open(path, "ab") as file:
                file.write(text.encode(errors="surrogateescape"))
        except OSError as error:
            raise Failure(LATER, f"cannot write {path}: {error.strerror}") from None

    def _put(self, path: str, text: str) -> None:
        """A file that only root or this user writes."""
        try:
            files.replace(path, text.encode(errors="surrogateescape"), 0o644)
        except OSError as error:
            raise Failure(LATER, f"cannot write {path}: {error.strerror}") from None

    # ---- how this site calls

    def call_by(self, carrier: str, words: Sequence[str]) -> None:
        """Makes this site call the neighbour. Limits that its entry has in TOML stay. (A word with a blank, or an empty one, needs TOML.)"""
        limits = carriers.values_of(self._session, self._name)
        call: dict[str, Any] = {"carrier": carrier, "words": [*words]}
        line = " ".join((carrier, *words))
        if not limits and line.split() == [carrier, *words]:
            self.write_entry(line)
        elif {**limits, **call} != limits:
            self.write_entry("\n".join(f"{key} = {_as_toml(value)}" for key, value in {**call, **limits, **call}.items()))
        if carrier == "ssh":
            self._make_key()
            self._find_host(words)
            key = " ".join(self._public_key())
            self._session.print(f"Run this as root at {self._name}, and give it the line below it as its input, so that {self._own} may call there:")
            self._session.print(f"uuspool-setup {self._own} key -")
            self._session.print(key)
        self._session.print(f"uuspool-call {self._name} calls {self._name} now, and uuspool-night when it is due.")

    def write_entry(self, text: str) -> None:
        """Writes how the neighbour is called: a line, or TOML."""
        self._make_folder(f"{self._etc}/calls")
        self._put(f"{self._etc}/calls/{self._name}", f"{text}\n")

    def _make_folder(self, path: str) -> None:
        try:
            os.makedirs(path, exist_ok=True)
        except OSError as error:
            raise Failure(LATER, f"cannot write below {self._etc}: {error.strerror}") from None

    def _run(self, *words: str) -> Ended:
        return self._session.processes.run(Program(words, "", self._session.environment))

    def _make_key(self) -> None:
        """The key with which this site calls. Its public half is beside it."""
        keys, owner = f"{self._etc}/keys", pwd.getpwnam(self._owner).pw_uid
        key = f"{keys}/{self._name}"
        self._make_folder(keys)
        self._give(keys, owner, 0o700)
        if os.path.lexists(key):
            return
        # (Not as root, since the owner may put a link there meanwhile.)
        made = self._session.run_as(self._owner, ["ssh-keygen", "-q", "-t", "ed25519", "-N", "", "-C", self._own, "-f", key])
        if made.status:
            self._show(made.errors)
            raise Failure(LATER, f"ssh-keygen makes no key {key}")

    def _public_key(self) -> list[str]:
        """The public half of that key, as the owner may read it, who may have put a link or a pipe there, or a file without end."""
        path = f"{self._etc}/keys/{self._name}.pub"
        words: list[str] = []
        with contextlib.suppress(OSError), acting_as(self._owner), files.opened(path, _READ) as handle:
            seen = os.fstat(handle)
            if stat.S_ISREG(seen.st_mode) and user_name(seen.st_uid) == self._owner and seen.st_size <= _MOST_OF_A_KEY:
                words = os.pread(handle, _MOST_OF_A_KEY, 0).decode(errors="replace").split()[:2]
        if not _is_key(words):
            why = f"{path} is no public key in a file of {self._owner}"
            raise Failure(LATER, f"{why}: as {self._owner} move it and {path.removesuffix('.pub')} away, and run this line again, which makes a new key")
        return words

    def _give(self, path: str, owner: int, mode: int) -> None:
        """Makes a folder the spool's user's alone, unless it is that of another site."""
        if (its := os.stat(path).st_uid) not in (0, owner):
            its_site = f"{path} belongs to {user_name(its)}, perhaps for another site"
            raise Failure(LATER, f"{its_site}: let UUSPOOL_ETC name a folder of its own for this one, or give that one to {self._owner} by hand")
        try:
            os.chown(path, owner, -1)
            os.chmod(path, mode)
        except OSError:
            raise Failure(LATER, f"{path} cannot be given to {self._owner}") from None

    def _find_host(self, words: Sequence[str]) -> None:
        """The keys of the host, which are asked for once. A person has to compare them."""
        host, port = words[0].partition("@")[2] or words[0], port_of(words)
        known, path = host if port == "22" else f"[{host}]:{port}", f"{self._etc}/known_hosts"
        if self._run("ssh-keygen", "-F", known, "-f", path).status == 0:
            return
        keys = self._run("ssh-keyscan", "-p", port, host).output
        self._append(path, keys.decode(errors="surrogateescape"))
        if not keys:
            self._session.say(f"{host} does not answer at port {port}: run this line again once it does, since {path} lacks its key")
            return
        self._session.print(f"The keys of {known}, to compare with the neighbour's:")
        program = Program(["ssh-keygen", "-l", "-f", "-"], "", self._session.environment)
        os.write(1, self._session.processes.run(program, keys).output)

    # ---- what seals bundles

    def seal(self, words: Sequence[str]) -> None:
        """Gives the neighbour a key."""
        seals.add(self._session, self._found, self._owner, self._name, words)

    # ---- who may call here

    def add_key(self, kind: str, key: str) -> None:
        """Lets the neighbour call here."""
        line = f'command="{self._answer()}",restrict {kind} {key} {self._name}'
        if os.geteuid():
            self._session.print(f"This is the line of the key, for the authorized_keys of the account that {self._name} calls:")
            self._session.print(line)
            return
        if self._variables():
            why = f"the account {_ACCOUNT} is for the site of {ETC}"
            raise Failure(LATER, f"{why}: make another one with the number of {self._owner}, and add this line to its authorized_keys: {line}")
        home = self._session.environment.get("UUSPOOL_HOME") or "/var/lib/uuspool"
        self._make_account(home)
        path = f"{home}/.ssh/authorized_keys"
        others = (files.read_bytes(path) or b"").decode(errors="surrogateescape").splitlines()
        theirs = [it for it in others if re.search("UUSPOOL_(DIR|ETC)=", it)]  # (lines of another site, which somebody added)
        if any(key in it.split() for it in theirs):
            raise Failure(LATER, f"{path} gives this key to a neighbour of another site: let {self._name} have another key")
        lines = [it for it in others if it in theirs or it.split()[-1:] != [self._name] and key not in it.split()]
        for name in {it.split()[-1] for it in others if key in it.split()} - {self._name}:
            self._session.print(f"{name} may not call with this key any more, since sshd takes the first line of a key.")
        self._put(path, "".join(f"{it}\n" for it in (*lines, line)))
        self._session.print(f"{self._name} may call uuspool@{os.uname().nodename} with its key now.")

    def _answer(self) -> str:
        """The command of the neighbour's key, within quotes."""
        words = [f"{self._session.commands}/uuspool-answer", self._name]
        given = self._variables()
        return shlex.join(["env", *given, *words] if given else words).replace('"', '\\"')

    def _variables(self) -> list[str]:
        """What leads to this site a command that sshd runs. The machine's own site needs none."""
        given = [f"UUSPOOL_ETC={os.path.abspath(self._etc)}"] if os.path.realpath(self._etc) != os.path.realpath(ETC) else []
        try:
            found = settings.find(self._session, without="UUSPOOL_DIR").spool
        except settings.NoSite:
            found = ""
        return given if found == self._found.spool else [f"UUSPOOL_DIR={self._found.start}", *given]

    def _make_account(self, home: str) -> None:
        """An account whose shell runs the command of a key, and whose files only root writes."""
        owner = pwd.getpwnam(self._owner)
        try:
            if pwd.getpwnam(_ACCOUNT).pw_uid != owner.pw_uid:
                why = f"the account {_ACCOUNT} has another number than {self._owner}, so who calls it does not reach this site"
                raise Failure(LATER, f"{why}: usermod -o -u {owner.pw_uid} -g {owner.pw_gid} {_ACCOUNT}")
        except KeyError:
            words = ["-o", "-u", str(owner.pw_uid), "-g", str(owner.pw_gid), "-M", "-N", "-d", home, "-s", "/bin/sh", "-p", "*"]
            made = self._run("useradd", *words, _ACCOUNT)
            if made.status:
                os.write(2, made.errors)
                raise Failure(LATER, f"the account {_ACCOUNT} cannot be made") from None
        try:
            os.makedirs(f"{home}/.ssh", exist_ok=True)
        except OSError as error:
            raise Failure(LATER, f"cannot write below {home}: {error.strerror}") from None
        for path in home, f"{home}/.ssh":
            seen = os.stat(path)
            if seen.st_uid or seen.st_mode & 0o022:
                raise Failure(LATER, f"{path} is not root's alone to write, so others choose who may call here: move it away, and run this line again")


def _as_toml(value: Any) -> str:
    """A value of an entry, as TOML has it."""
    import json  # (takes long to load)

    return json.dumps(value, ensure_ascii=False)


def port_of(words: Sequence[str]) -> str:
    """The port that options of ssh give."""
    port = "22"
    for before, word in zip(("", *words), words):
        if before == "-p":
            port = word
        elif word.startswith("-p") and word != "-p":
            port = word[2:]
    return port
