"""Bytes of a file as runs, each a first byte, a last byte and a value."""

from __future__ import annotations

from bisect import bisect_left, bisect_right
from collections.abc import Iterator
from typing import Callable, Optional

Run = tuple[int, int, str]


class Runs:
    """Runs that rise and don't overlap. Two that touch have two values."""

    def __init__(self) -> None:
        self._runs: list[Run] = []

    def __iter__(self) -> Iterator[Run]:
        return iter(self._runs)

    def add(self, run: Run) -> None:
        """Adds a run behind all others."""
        self._runs.append(run)

    def change(
        self, lo: int, hi: int, value_of: Callable[[Optional[str]], Optional[str]]
    ) -> tuple[list[Run], list[Run]]:
        """Gives each byte of a span the new value of its old one; None stands for no value.

        Returns the runs that were there before alone, and those that are there behind alone.
        """
        begin, end = self._touched(lo - 1, hi + 1)
        old = self._runs[begin:end]
        new = _joined(_changed(old, lo, hi, value_of))
        self._runs[begin:end] = new
        kept = set(old).intersection(new)
        return [run for run in old if run not in kept], [run for run in new if run not in kept]

    def within(self, lo: int, hi: int) -> list[Run]:
        """Returns the runs that have a byte of the span."""
        begin, end = self._touched(lo, hi)
        return self._runs[begin:end]

    def _touched(self, lo: int, hi: int) -> tuple[int, int]:
        begin = bisect_left(self._runs, (lo,))
        if begin and self._runs[begin - 1][1] >= lo:
            begin -= 1
        return begin, bisect_right(self._runs, (hi + 1,))


def _changed(
    old: list[Run], lo: int, hi: int, value_of: Callable[[Optional[str]], Optional[str]]
) -> Iterator[tuple[int, int, Optional[str]]]:
    """Yields the pieces of runs, in order, as they are behind the change; some have no byte."""
    at = lo
    for first, last, value in old:
        if first < lo:
            yield first, min(last, lo - 1), value
        begin, end = max(first, lo), min(last, hi)
        if begin <= end:
            yield at, begin - 1, value_of(None)
            yield begin, end, value_of(value)
            at = end + 1
        if last > hi:
            yield at, hi, value_of(None)
            yield max(first, hi + 1), last, value
            at = hi + 1
    yield at, hi, value_of(None)


def _joined(pieces: Iterator[tuple[int, int, Optional[str]]]) -> list[Run]:
    joined: list[Run] = []
    for lo, hi, value in pieces:
        if hi < lo or value is None:
            continue
        if joined and joined[-1][1] + 1 == lo and joined[-1][2] == value:
            joined[-1] = (joined[-1][0], hi, value)
        else:
            joined.append((lo, hi, value))
    return joined
