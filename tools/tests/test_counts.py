"""Tests of counts: stretches of bytes that touch, end and meet at the limits."""

from __future__ import annotations

import unittest

from nuvatsimo.counts import FileCounts
from nuvatsimo.texts import GREATEST, span_of


def rows(*touches: tuple[int, int, int]) -> list[tuple[int, int, int]]:
    """Returns the rows of touches in the first column."""
    file = FileCounts()
    for lo, hi, count in touches:
        file.touch(lo, hi, ((0, count),))
    return [(lo, hi, numbers[0]) for lo, hi, numbers in file.rows()]


class Rows(unittest.TestCase):
    """The longest stretches with the same numbers."""

    def test_touching_stretches_are_one(self) -> None:
        self.assertEqual([(0, 19, 1)], rows((0, 9, 1), (10, 19, 1)))

    def test_gap(self) -> None:
        self.assertEqual([(0, 9, 1), (11, 19, 1)], rows((0, 9, 1), (11, 19, 1)))

    def test_overlap(self) -> None:
        self.assertEqual([(0, 4, 1), (5, 9, 3), (10, 14, 2)], rows((0, 9, 1), (5, 14, 2)))

    def test_to_the_greatest_byte(self) -> None:
        self.assertEqual([(0, 8, 1), (9, GREATEST, 2)], rows((0, GREATEST, 1), (9, GREATEST, 1)))

    def test_nothing(self) -> None:
        self.assertEqual([], rows())


class Spans(unittest.TestCase):
    """Segments as in `struct flock`."""

    def test_lengths(self) -> None:
        self.assertEqual((5, 14), span_of(5, 10))
        self.assertEqual((5, GREATEST), span_of(5, 0))
        self.assertEqual((2, 4), span_of(5, -3))


if __name__ == "__main__":
    unittest.main()
