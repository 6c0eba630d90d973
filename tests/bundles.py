#!/usr/bin/env python3
"""Bundles for tests: texts of the form in uuspool-bundle(5), made without the program."""
import hashlib
import hmac
import re


def mark(text):
    """The mark of a text: the first 63 bits of its SHA-256."""
    return int.from_bytes(hashlib.sha256(text).digest()[:8], "big") // 2


def mark_of(sender, to, number, user, words, data, spool=b"-"):
    """The mark of a job."""
    return mark(b"%s\njob %s %s %s %d %s\n%s" % (spool, sender, to, user, number, words, data))


def has(number, told):
    """The record of a job that the sender has."""
    return b"has %d %d\n" % (number, told)


def no(number, told, name):
    """The record of a job that the sender won't take, and why."""
    return b"no %d %d %s\n" % (number, told, name)


def job(sender, to, number, grade, user, words, data, spool=b"-"):
    """The record of a job for the other site."""
    told = mark_of(sender, to, number, user, words, data, spool)
    return b"job %d %d %s %s %d %s\n%s\n" % (number, told, grade, user, len(data), words, data)


def bundle(sender, to, below, *records, spool=b"-", grade=b"z"):
    """The bundle with these records, which asks for an answer of that grade."""
    first = b"bundle %s %s %s %d %s" % (sender, to, spool, below, grade)
    return b"%s %d\n%send\n" % (first, mark(first), b"".join(records))


# ---- the same in fewer bytes


def records_of(text):
    """The first line of a bundle, and its records."""
    first, _, rest = text.partition(b"\n")
    records = []
    while rest != b"end\n":
        line, _, behind = rest.partition(b"\n")
        size = int(line.split()[5]) + 1 if line.startswith(b"job ") else 0
        records.append(line + b"\n" + behind[:size])
        rest = behind[size:]
    return first + b"\n", records


def fitted(text, most, is_answer=False):
    """What is left of a bundle in so many bytes: of the lines `has` the first, and as many more as
    fit in half of them; of the jobs the first, and as many more as fit. An answer has all its lines."""
    text, records = records_of(text)
    told = [it for it in records if not it.startswith(b"job ")]
    for at, line in enumerate(told):
        if at and not is_answer and len(text + line) > most // 2:
            break
        text += line
    for at, record in enumerate(it for it in records if it.startswith(b"job ")):
        if at and len(text + record + b"end\n") > most:
            break
        text += record
    return text + b"end\n"


# ---- seals, by Python's hmac

PIECE = 4096


def name_of(key):
    """The name of a key, which the first line of a sealed text has."""
    return hmac.digest(key, b"sealed", "sha256")


def first_line(key):
    return b"sealed %s\n" % name_of(key).hex().encode()


def piece_text(tag, piece):
    return b"piece %d %s\n%s\n" % (len(piece), tag.hex().encode(), piece)


def pieces_of(key, text, before=None):
    """The pieces of a text, each with its tag, after this tag or after the key's name."""
    before = before or name_of(key)
    for at in range(0, len(text), PIECE):
        piece = text[at : at + PIECE]
        before = hmac.digest(key, before + piece, "sha256")
        yield piece_text(before, piece)


def sealed(key, text):
    """The text, sealed with a key of 32 bytes."""
    return first_line(key) + b"".join(pieces_of(key, text))


def parts_of(text):
    """The first line of a sealed text and its pieces, whatever their tags are: whoever has no key
    reads all of it."""
    first, _, rest = text.partition(b"\n")
    parts = [first + b"\n"]
    while head := re.match(rb"piece (\d+) [0-9a-f]{64}\n", rest):
        end = head.end() + int(head[1]) + 1
        parts.append(rest[:end])
        rest = rest[end:]
    return parts


def read_of(text):
    """What a sealed text says, to whoever has no key."""
    return b"".join(part.partition(b"\n")[2][:-1] for part in parts_of(text)[1:])
