"""Names, numbers and lines of strangers, and the time."""
import unittest

from uuspool_calls import clock, texts


class Texts(unittest.TestCase):
    def test_names(self) -> None:
        for word in "duke", "a.b-c_d", "9", ".x":
            self.assertTrue(texts.is_name(word), word)
        for word in "", "-x", "a/b", "a b", "..", ".", "a\n", "é":
            self.assertFalse(texts.is_name(word), word)

    def test_numbers(self) -> None:
        for word in "0", "7", "4294967294":
            self.assertTrue(texts.is_number(word), word)
        for word in "", "00", "07", "-1", "1x", "12345678901", "1\n":
            self.assertFalse(texts.is_number(word), word)

    def test_plain(self) -> None:
        self.assertEqual("a?b", texts.plain(b"a\x1bb\nsecond"))
        self.assertEqual("x" * 300, texts.plain(b"x" * 400))
        self.assertEqual("??", texts.printable("é"))

    def test_a_path_is_typed_as_one_word(self) -> None:
        for path, shown in ("/a/b-c.d", "/a/b-c.d"), ("/a/$(id)", "'/a/$(id)'"), ("/a b\n;c", "'/a b?;c'"), ("/é'", "'/??'\"'\"''"):
            self.assertEqual(shown, texts.typed(path))

    def test_one_line(self) -> None:
        self.assertEqual("uuspool: spool: store no space", texts.one_line(b"uuspool: spool: store\nuuspool: cause: no space\n"))

    def test_lines(self) -> None:
        self.assertEqual([], texts.lines_of(b""))
        self.assertEqual([b"a", b"b"], texts.lines_of(b"a\nb"))
        self.assertEqual([b"a", b""], texts.lines_of(b"a\n\n"))


class Clock(unittest.TestCase):
    def test_zones(self) -> None:
        self.assertEqual("2001-09-09 01:46:40", clock.shown("UTC0", 1_000_000_000))
        self.assertEqual("2001-09-09 07:31:40", clock.shown("<site>-5:45", 1_000_000_000))
        self.assertEqual("2001-09-08 21:46:40", clock.shown("EST5EDT,M3.2.0,M11.1.0", 1_000_000_000))
        self.assertEqual("2001-09-09 01:46:40", clock.shown("UTC0", 1_000_000_000))
