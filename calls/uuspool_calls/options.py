"""Options of one letter, as `getopts` of a shell reads them, and a few of a word."""
from collections.abc import Sequence

from .errors import USAGE, Failure


def read(words: Sequence[str], letters: str, usage: str, names: Sequence[str] = ()) -> tuple[dict[str, str], list[str]]:
    """The options before the first other word, each with its value, and the words after them. A colon behind
    a letter says that it has a value. One of a name, `--dry-run`, has none."""
    found, rest = {}, list(words)
    while rest and rest[0].startswith("-") and rest[0] != "-":
        cluster = rest.pop(0)[1:]
        if cluster == "-":
            break
        if cluster[:1] == "-" and cluster[1:] in names:
            found[cluster[1:]], cluster = "", ""
        while cluster:
            letter, cluster = cluster[0], cluster[1:]
            if letter == ":" or letter not in letters:
                raise Failure(USAGE, f"no option -{letter}: {usage}")
            found[letter] = ""
            if letters.partition(letter)[2].startswith(":"):
                if not cluster and not rest:
                    raise Failure(USAGE, f"-{letter} wants a value: {usage}")
                found[letter], cluster = cluster or rest.pop(0), ""
    return found, rest
