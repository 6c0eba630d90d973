"""Markup, and numbers and times in words."""
import html
from collections.abc import Iterable

from .times import DAY, HOUR, MINUTE

VOID = {"meta", "rect", "path", "line"}


def text(value: object) -> str:
    """A text as markup."""
    return html.escape(str(value))


def tag(name: str, content: str = "", /, **attributes: object) -> str:
    """An element. Its content is markup, and the values of its attributes are text."""
    its = "".join(f' {key.strip("_").replace("_", "-")}="{text(value)}"' for key, value in attributes.items() if value is not None)
    return f"<{name}{its}/>" if name in VOID and not content else f"<{name}{its}>{content}</{name}>"


def row(kind: str, cells: Iterable[str], classes: Iterable[str | None], **attributes: object) -> str:
    """A row of a table, of cells th or td."""
    return tag("tr", "".join(tag(kind, cell, class_=class_) for cell, class_ in zip(cells, classes)), **attributes)


def count(number: int, what: str) -> str:
    """A number of things."""
    return f"{number:,} {what}" + ("" if number == 1 else "s")


def size(number: float) -> str:
    """A number of bytes, with at least two digits."""
    for unit in ("B", "kB", "MB", "GB"):
        if number < 1000 or unit == "GB":
            return f"{number:,} {unit}" if isinstance(number, int) else f"{number:.1f} {unit}" if number < 100 else f"{number:.0f} {unit}"
        number /= 1000
    return ""


def lasting(seconds: int) -> str:
    """A length of time in its two largest units."""
    units = ((DAY, "d"), (HOUR, "h"), (MINUTE, "min"), (1, "s"))
    for place, (unit, name) in enumerate(units):
        if seconds >= unit:
            left = seconds % unit // units[place + 1][0] if unit > MINUTE else 0
            return f"{seconds // unit} {name}" + (f" {left} {units[place + 1][1]}" if left else "")
    return "0 s"


def grades(grade: str) -> str:
    """The grades down to this one."""
    return {"0": "grade 0 alone", "z": "every grade"}.get(grade, f"grades 0 to {grade}")


def twice(place: int) -> str:
    """Which of two times is meant."""
    return ("", ", the first time", ", the second time")[place]


def hours(begin: int, end: int) -> str:
    """The first and the last minute of a part of a day."""
    return f"{begin // HOUR:02}:{begin // MINUTE % 60:02} to {(end - 1) // HOUR:02}:{(end - 1) // MINUTE % 60:02}"
