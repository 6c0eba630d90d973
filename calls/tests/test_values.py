"""Values of named parts, compared with what typing makes of the same class."""
import typing
import unittest

from uuspool_calls.values import NamedTuple


class Mine(NamedTuple):
    name: str
    size: int = 7

    @property
    def shown(self) -> str:
        return f"{self.name} {self.size}"


class Its(typing.NamedTuple):
    name: str
    size: int = 7

    @property
    def shown(self) -> str:
        return f"{self.name} {self.size}"


class Values(unittest.TestCase):
    def test_parts(self) -> None:
        for kind in Mine, Its:
            made = kind("a", size=9)
            self.assertEqual(("a", 9, "a 9"), (made.name, made.size, made.shown))
            self.assertEqual((("a", 7), ("b", 7), ("c", 8)), (kind("a"), kind(name="b"), kind("c", 8)))
            self.assertEqual((("name", "size"), {"size": 7}), (kind._fields, kind._field_defaults))
            self.assertEqual(({"name": "a", "size": 9}, ("a", 1)), (made._asdict(), made._replace(size=1)))
            self.assertIs(kind, type(made._replace(size=1)))
            name, *rest = made
            self.assertEqual(("a", [9]), (name, rest))
            with self.assertRaises(AttributeError):
                made.size = 1  # type: ignore[misc]

    def test_wrong_parts(self) -> None:
        for kind in Mine, Its:
            for values, named in ((), {}), (("a", 1, 2), {}), (("a",), {"age": 1}), (("a",), {"name": "b"}):
                with self.assertRaises(TypeError, msg=f"{kind} {values} {named}"):
                    kind(*values, **named)
            with self.assertRaises((TypeError, ValueError)):
                kind("a")._replace(age=1)
