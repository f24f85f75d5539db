"""The times of the lines of a recording, in nanoseconds since 1970."""

from __future__ import annotations

import re
from array import array
from typing import NamedTuple, Optional

from nuvatsimo.strace.lines import is_aside, lines_of, timed_of
from nuvatsimo.texts import GREATEST

SECOND = 10**9
# Digits behind the point of a time that counts single nanoseconds.
FINEST = 9
# A lesser number of seconds is no time since 1970, but one since the line before (strace -r).
LEAST_SECONDS = 10**9
NO_TIME = "expected a time since 1970, as strace -ttt writes it"
BACKWARDS = "expected no time before that of a line above it"
_SECONDS = re.compile(r"([0-9]+)\.([0-9]{1,9})")


class BadTime(Exception):
    """A line has no time, or one that goes back."""

    def __init__(self, line: int, reason: str) -> None:
        super().__init__(reason)
        self.line = line
        self.reason = reason


class Seconds(NamedTuple):
    """A number of seconds as it is written, in nanoseconds, and the digits behind its point."""

    nanoseconds: int
    digits: int


class Stretch(NamedTuple):
    """A stretch of time, until `end` where that is known."""

    begin: int
    end: Optional[int]


def place_value(digits: int) -> int:
    """Returns what the last of so many digits behind a point counts, in nanoseconds."""
    return 10 ** (FINEST - digits)


def seconds_in(word: str) -> Optional[Seconds]:
    """Returns the number of seconds that a word is, with one to nine digits behind its point."""
    found = _SECONDS.fullmatch(word)
    if found is None or len(found[1]) > 1000:
        return None
    digits = len(found[2])
    nanoseconds = int(found[1]) * SECOND + int(found[2]) * place_value(digits)
    return Seconds(nanoseconds, digits) if nanoseconds <= GREATEST else None


def time_before(text: str) -> Optional[Seconds]:
    """Returns the time since 1970 that a text begins with, if it does."""
    word, blank, _ = text.partition(" ")
    time = seconds_in(word) if blank else None
    return time if time and time.nanoseconds >= LEAST_SECONDS * SECOND else None


class LineTimes:
    """The times of the lines of a recording. They never fall.

    A line without a time has that of the next line that has one. Behind the last of those there
    are none.
    """

    def __init__(self, recording: str) -> None:
        self._at = array("q")
        # Digits behind the point: the fewest before a line, and the most of any time.
        self._fewest = FINEST
        self._most = 0
        for number, line in enumerate(lines_of(recording), 1):
            self._take(number, line)

    def _take(self, number: int, line: str) -> None:
        process = timed_of(line)
        text = process[1] if process else line
        at = time_before(text)
        if at is None:
            if is_aside(text):
                return
            raise BadTime(number, NO_TIME)
        if at.nanoseconds < self._last():
            raise BadTime(number, BACKWARDS)
        self._fewest = min(self._fewest, at.digits)
        self._most = max(self._most, at.digits)
        for _ in range(len(self._at), number):
            self._at.append(at.nanoseconds)

    def _last(self) -> int:
        return self._at[-1] if self._at else 0

    def are_fine(self) -> bool:
        """Tells whether a time counts less than microseconds."""
        return self._most > 6

    def cut(self) -> int:
        """Returns how many nanoseconds a time before a line may be off, since it is cut off."""
        return place_value(self._fewest) - 1

    def at(self, line: int) -> int:
        """Returns the time before a line, or that of the last line where there is none."""
        return self._at[line - 1] if line <= len(self._at) else self._last()

    def end(self, begin: int, end: int, step: int) -> Optional[int]:
        """Returns a time by which a call had returned that began in one line, as another tells.

        It is the time of that other line, where the call was resumed. Else it is before the next
        line was written, by a step of the history's times. It is None where no next line has a
        time. The length of a call, as strace -T writes it, is no bound: strace takes the time
        before the line first, and begins to measure later.
        """
        if begin != end:
            return self.at(end)
        if end >= len(self._at):
            return None
        return max(self._at[end] - step, self._at[end - 1])
