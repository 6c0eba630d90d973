"""Names, numbers and lines, as they may come from strangers."""

_OF_NAMES = frozenset("ABCDEFGHIJKLMNOPQRSTUVWXYZabcdefghijklmnopqrstuvwxyz0123456789._-")
_OF_SUMS = frozenset("0123456789abcdef")


def is_name(word: str) -> bool:
    """Whether this may be the name of a system. It is also the name of a file, so `.` and `..` aren't."""
    return word not in ("", ".", "..") and word[0] != "-" and _OF_NAMES.issuperset(word)


def is_number(word: str, most: int = 10) -> bool:
    """Whether this is a number without a sign or leading zeros, and with so many digits at most."""
    return is_digits(word, most) and (word == "0" or word[0] != "0")


def is_digits(word: str, most: int) -> bool:
    """Whether this is one decimal digit or more, up to so many."""
    return word.isascii() and word.isdecimal() and len(word) <= most


def is_word(word: str) -> bool:
    """Whether this may be a word of a bundle: at most 255 visible ASCII characters."""
    return 0 < len(word) < 256 and word.isascii() and word.isprintable() and " " not in word


def is_sum(word: str) -> bool:
    """Whether this is a SHA-256, as `sha256sum` prints it."""
    return len(word) == 64 and _OF_SUMS.issuperset(word)


def printable(text: bytes | str) -> str:
    """A text in which `?` stands for each byte that isn't printable ASCII."""
    data = text.encode(errors="surrogateescape") if isinstance(text, str) else text
    return "".join(chr(byte) if 32 <= byte < 127 else "?" for byte in data)


def typed(path: str) -> str:
    """A path in a sentence that has somebody type it. A shell reads it as one word, whoever made or named what is there."""
    import shlex  # (takes long to load)

    return shlex.quote(printable(path))


def plain(text: bytes) -> str:
    """The first line of a text from outside, at most 300 bytes of it, in printable characters."""
    return printable(text[:300].partition(b"\n")[0])


def lines_of(text: bytes) -> list[bytes]:
    """The lines of a text, the last of which may have no end."""
    return text.removesuffix(b"\n").split(b"\n") if text else []


def one_line(text: bytes) -> str:
    """What a program said, as one line."""
    return " ".join(text.decode(errors="surrogateescape").replace("uuspool: cause: ", "").split("\n")).rstrip(" ")
