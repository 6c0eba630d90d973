"""Which job of a sender put the newest file of each name, so that an older one, which is delivered later, doesn't replace it.

The record of a sender is one small file, written before a file gets its name: after a stop between the two, the job comes
again, and an older one still replaces nothing. Of most names it has the number of the job. Those that it has no more
count as the newest of them.

A file for which a user here asked replaces only one for which the same user asked, and no other file replaces it, because that user
chose its name. So the record has whose it is, too.

A file that was put beside another one, under a number, has a name of which no job of that name knows. So the record forgets such a
name, but has the job that put it there. What has one that the record doesn't know isn't replaced, whatever put it there."""
from collections.abc import Mapping

from . import files
from .digests import sha256
from .public import has_number

_MOST = 1000  # names
_SIGNS = 16  # of the sum of a name


def note(path: str, word: str, name: str, number: int, is_there: bool = False, user: str = "") -> bool:
    """Notes in a record that a job of the spool of this word puts a file of a name, for which this user here asked, if one did. Not if a
    newer one did, or if one is there that another one asked for, or that may have been put beside another one: whether it is noted. OSError
    if it can't be. (Another spool gives its numbers anew.)"""
    others, names = _read(path, word)
    key = _key(name)
    if number < names.get(key, others) or (is_there and not _is_of(names, name, user)):
        return False
    if names.get(key) != number:
        names |= dict.fromkeys([key, *([_key_of(name, user), _key_of(name)] if user else [])], number)
        _write(path, word, others, names)
    return True


def _is_of(names: Mapping[str, int], name: str, user: str) -> bool:
    """Whether this user asked for the newest file of a name, or nobody here did if there is no user. (What the record doesn't know is of the
    neighbour, unless its name has a number.)"""
    newest = names.get(_key(name))
    if newest is None:
        return not (user or has_number(name))
    return newest == names.get(_key_of(name, user)) if user else newest != names.get(_key_of(name))


def _key_of(name: str, user: str = "") -> str:
    """The key of a file of this name for which this user asked, or anybody here."""
    return _key(f"{name}\0{user}")


def put_beside(path: str, word: str, name: str, number: int) -> None:
    """Forgets a name with a number before a file of a job, which is put beside another one, gets it. OSError if it can't."""
    others, names = _read(path, word)
    names.pop(_key(name), None)
    if names.get(_key_beside(name)) != number:
        names[_key_beside(name)] = number
        _write(path, word, others, names)


def is_of_job(path: str, word: str, name: str, number: int) -> bool:
    """Whether a job put the file of a name, there or beside another one."""
    _, names = _read(path, word)
    return number in (names.get(_key(name)), names.get(_key_beside(name)))


def _key_beside(name: str) -> str:
    """The key of a file that was put beside another one."""
    return _key(f"{name}\0\0")


def _write(path: str, word: str, others: int, names: dict[str, int]) -> None:
    while len(names) > _MOST:
        others = max(others, names.pop(min(names, key=names.__getitem__)))
    files.write_record(path, {"word": word, "others": others, "names": names})


def _key(name: str) -> str:
    return sha256(name.encode(errors="surrogateescape")).hexdigest()[:_SIGNS]


def _read(path: str, word: str) -> tuple[int, dict[str, int]]:
    """The greatest number of those that the record has no more, and the numbers by the sums of the names."""
    record = files.read_record(path)
    try:
        if record["word"] == word:
            return int(record["others"]), {name: int(number) for name, number in record["names"].items()}
    except (KeyError, TypeError, ValueError, AttributeError):
        pass
    return 0, {}
