"""Bundles, as the example in uuspool-bundle(5) and the tests' own writer have them."""
import os
import sys
import unittest

from uuspool_calls import bundle

sys.path.insert(0, os.path.join(os.path.dirname(__file__), "../../tests"))
import bundles  # noqa: E402

EXAMPLE = b"""bundle mysite duke - 3 z 7882097032252309282
has 7 8172400238152747392
job 3 3105269925529380837 N ann 6 send /tmp/letter ~/letter
hello

end
"""


class Bundles(unittest.TestCase):
    def test_head(self) -> None:
        self.assertEqual("z", bundle.grade_wanted(EXAMPLE))
        for text in b"bundle mysite duke - 3 z 7882097032252309283", b"Welcome to this machine", b"":
            self.assertEqual("", bundle.grade_wanted(text), text)

    def test_jobs(self) -> None:
        (offer,) = bundle.offers_in(EXAMPLE)
        self.assertEqual((3, "ann", "send", ("/tmp/letter", "~/letter"), b"hello\n"), (offer.number, offer.user, offer.kind, offer.words, offer.data))

    def test_a_bundle_that_was_cut_off_is_read_up_to_there(self) -> None:
        text = bundles.bundle(b"a", b"b", 1, *(bundles.job(b"a", b"b", n, b"N", b"ann", b"send /x ~/x", b"bytes") for n in (1, 2)))
        for end in range(len(text)):
            numbers = [it.number for it in bundle.offers_in(text[:end])]
            self.assertEqual(numbers, [1, 2][: len(numbers)])
        self.assertEqual([1, 2], [it.number for it in bundle.offers_in(text)])
        self.assertEqual(2, bundle.last_job(text))

    def test_a_front_has_so_many_jobs(self) -> None:
        jobs = [bundles.job(b"a", b"b", n, b"N", b"ann", b"send /x ~/x", b"\njob 9 9 N u 0 send a b\n\n") for n in range(1, 8)]
        text = bundles.bundle(b"a", b"b", 1, bundles.has(7, 7), *jobs)
        for most, left in (1, 1), (6, 6), (7, 7), (20, 7):
            front = bundle.front(text, most)
            self.assertEqual((list(range(1, left + 1)), True), ([it.number for it in bundle.offers_in(front)], bundle.has_line(front, b"has")))
            self.assertEqual(most >= 7, front == text)
        # (What isn't a job for this reader, and may be one for the program, doesn't count.)
        odd = text.replace(b"job 3 ", b"job 03 ", 1)
        self.assertEqual([1, 2], [it.number for it in bundle.offers_in(bundle.front(odd, 6))])
        self.assertNotIn(b"job 03", bundle.front(odd, 6))
        self.assertNotIn(b"job 4", bundle.front(text.replace(b"job 1 ", b"job 01 ", 1), 6))

    def test_a_front_of_a_sealed_bundle_has_whole_pieces(self) -> None:
        said = bundles.bundle(b"a", b"b", 1, *(bundles.job(b"a", b"b", n, b"N", b"ann", b"send /x ~/x", b"") for n in range(1, 500)))
        pieces = [said[at : at + 4096] for at in range(0, len(said), 4096)]
        text = b"sealed %064d\n" % 0 + b"".join(b"piece %d %064d\n%s\n" % (len(it), 0, it) for it in pieces)
        front = bundle.front(text, 100)
        self.assertEqual(b"".join(pieces[:2]), bundle.said_in(front))
        self.assertTrue(text.startswith(front))
        self.assertTrue(100 <= len(list(bundle.offers_in(front))) < 200)
        self.assertEqual(text, bundle.front(text, 499))

    def test_a_front_says_once_what_becomes_of_a_job(self) -> None:
        first, other = (bundles.job(b"a", b"b", 1, b"N", b"ann", b"exec rmail " + it, b"\nno 1 1 Stale\n") for it in (b"joe", b"eve"))
        said = bundles.has(1, 1) + bundles.has(1, 1), bundles.no(1, 1, b"Stale"), bundles.no(2, 1, b"Stale"), first
        whole = bundles.bundle(b"a", b"b", 1, *said)
        self.assertEqual(whole, bundle.front(whole, 9))
        for more in bundles.no(1, 1, b"Stale"), bundles.no(2, 2, b"Differs"), first, other:
            text = bundles.bundle(b"a", b"b", 1, *said, *[more] * 3, bundles.job(b"a", b"b", 2, b"N", b"ann", b"exec rmail joe", b""))
            self.assertEqual(whole.removesuffix(b"end\n"), bundle.front(text, 9))

    def test_bytes_of_a_job_are_no_record(self) -> None:
        text = bundles.bundle(b"a", b"b", 1, bundles.job(b"a", b"b", 1, b"N", b"ann", b"send /x ~/x", b"\njob 9 9 N u 0 send a b\n\nend\n"))
        self.assertEqual([1], [it.number for it in bundle.offers_in(text)])

    def test_none(self) -> None:
        text = bundles.bundle(b"a", b"b", 1, bundles.has(7, 7))
        self.assertFalse(bundle.has_jobs(text))
        self.assertIsNone(bundle.last_job(text))
        self.assertFalse(bundle.has_jobs(b""))
        self.assertTrue(bundle.has_jobs(EXAMPLE))
        self.assertEqual((True, False), (bundle.has_line(text, b"no", b"has"), bundle.has_line(text, b"job")))

    def test_what_is_no_job_ends_the_bundle(self) -> None:
        for line in b"job 1 2 N ann -5 send a b", b"job 1 2 N ann 9999999 send a b", b"job x 2 N ann 0 send a b", b"job 1 x N ann 0 send a b", b"Job":
            self.assertEqual([], list(bundle.offers_in(b"head\n%s\n\nend\n" % line)), line)
