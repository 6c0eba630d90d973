"""Exchanges what is in the spool's folder name by name, if no folder can take the place of that one.

What was there goes to another folder, the spool first. Then what was made comes, the spool last. Each step is on the disk before the next
one. So whenever this is stopped, the site has the old spool, the new one, or none, and then each line fails. A mark in the folder of what
was there says that all of it is away, so that a later run knows how to go on.

For root the spool's user does this, who may put links into these folders meanwhile."""
import contextlib
import itertools
import os
from collections.abc import Iterator

from . import files, restored
from .source import OURS

_ENDS = ("", "-wal", "-word", "-journal", "-new", "-new-wal")  # of the names of the spool's files that go. The lock stays
_AWAY = ".away"  # the mark


def exchange(folder: int, made: int, old: int, spool: str) -> None:
    """Does this in open folders, or the rest of it. If a step fails, all that was done is undone."""
    with contextlib.ExitStack() as undo:
        if not files.look(_AWAY, old, follows=False):
            for name in _names(folder, spool):
                _move(folder, name, old, undo)
            os.mkdir(_AWAY, 0o700, dir_fd=old)
            undo.callback(os.rmdir, _AWAY, dir_fd=old)
            files.sync(old)
        for name in reversed(_names(made, spool)):
            if files.look(name, folder, follows=False):
                _move(folder, name, old, undo)
            _move(made, name, folder, undo)
        undo.pop_all()


def _names(folder: int, spool: str) -> list[str]:
    """What goes, as far as a folder has it."""
    names = *(f"{spool}{end}" for end in _ENDS), restored.NAME, *OURS
    return [it for it in names if files.look(it, folder, follows=False)]


def _move(source: int, name: str, target: int, undo: contextlib.ExitStack) -> None:
    """Moves a name to another folder. (After a stop a call that failed may have made a folder again that is away already.)"""
    new = next(it for it in _also(name) if not files.look(it, target, follows=False))
    os.rename(name, new, src_dir_fd=source, dst_dir_fd=target)
    undo.callback(os.rename, new, name, src_dir_fd=target, dst_dir_fd=source)
    for handle in target, source:
        files.sync(handle)


def _also(name: str) -> Iterator[str]:
    yield name
    yield from (f"{name}.{it}" for it in itertools.count(1))
