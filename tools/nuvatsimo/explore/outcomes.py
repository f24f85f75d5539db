"""The outcomes of a script: what each of its calls comes to, and what is expected of it."""

from __future__ import annotations

from collections.abc import Iterator
from typing import NamedTuple, Optional, Tuple

from nuvatsimo import scripts
from nuvatsimo.explore.left_open import BLOCKED, OPEN_ANSWERS
from nuvatsimo.scripts import Call, Script

NOT_MADE = "not made"

# What each call of a script comes to, in the order of its lines.
Answers = Tuple[str, ...]


class ExpectedCall(NamedTuple):
    """A call of a script, by its line, and the words with which its answer has to begin."""

    line: int
    call: Call
    expected: Optional[str]

    def is_broken(self, answer: str) -> bool:
        """Says whether the answer begins otherwise than is expected."""
        return self.expected is not None and not answer.startswith(self.expected)

    def is_stuck(self, answer: str) -> bool:
        """Says whether the call is blocked for good, and nothing is expected of it."""
        return self.expected is None and answer == BLOCKED


class Outcome:
    """What the calls of a script come to, and the seeds or the schedule that came to it."""

    def __init__(self, answers: Answers, calls: list[ExpectedCall]) -> None:
        self.answers = answers
        self.seeds: list[int] = []
        # The place of the first schedule that comes to it, where schedules have places.
        self.place: Optional[int] = None
        pairs = list(zip(calls, answers))
        self.is_breaking = any(call.is_broken(answer) for call, answer in pairs)
        self.is_stuck = any(call.is_stuck(answer) for call, answer in pairs)

    def rank(self) -> tuple[bool, int]:
        """Returns its place: those that break what is expected are first, then frequent ones."""
        return not self.is_breaking, -len(self.seeds)


class ToldCall(NamedTuple):
    """A call that is told of an outcome, with its answer, and what is expected otherwise."""

    line: int
    call: Call
    answer: str
    expected: Optional[str]


class Outcomes:
    """The distinct outcomes of a script, and what they have in common."""

    def __init__(self, text: str, script: Script) -> None:
        words = {number - 1: it for number, it, counts in scripts.expectations(text) if counts}
        self.calls = [
            ExpectedCall(line.number, line.command, words.get(line.number))
            for line in script.lines
            if isinstance(line.command, Call)
        ]
        self._found: dict[Answers, Outcome] = {}

    def __len__(self) -> int:
        return len(self._found)

    def come(self, answers: Answers) -> Outcome:
        """A schedule comes to these answers. Returns their outcome, which may be new."""
        outcome = self._found.get(answers)
        if outcome is None:
            outcome = self._found[answers] = Outcome(answers, self.calls)
        return outcome

    def ordered(self) -> list[Outcome]:
        """Returns the outcomes in order. Those of one rank stand as they came."""
        return sorted(self._found.values(), key=Outcome.rank)

    def told(self, outcome: Outcome) -> list[ToldCall]:
        """Returns the calls that are told of an outcome.

        These are the calls in which outcomes differ, that are open, or whose answers begin
        otherwise than is expected.
        """
        told = []
        for place, (call, answer) in enumerate(zip(self.calls, outcome.answers)):
            is_broken = call.is_broken(answer)
            if is_broken or answer in OPEN_ANSWERS or self._differs(place, answer):
                expected = call.expected if is_broken else None
                told.append(ToldCall(call.line, call.call, answer, expected))
        return told

    def expected(self) -> int:
        """Counts the calls of which something is expected."""
        return sum(call.expected is not None for call in self.calls)

    def breaking(self) -> int:
        """Counts the outcomes that break what is expected."""
        return sum(outcome.is_breaking for outcome in self._found.values())

    def open_in_each(self) -> list[int]:
        """Returns the lines whose calls are open in each outcome, if there is one."""
        return [
            call.line
            for call, answers in self._columns()
            if all(answer in OPEN_ANSWERS for answer in answers)
        ]

    def stuck(self) -> list[int]:
        """Returns the lines whose calls are blocked for good, where nothing is expected."""
        return [
            call.line
            for call, answers in self._columns()
            if any(call.is_stuck(answer) for answer in answers)
        ]

    def wanting(self) -> list[Outcome]:
        """Returns the outcomes that break what is expected. Where none does, these are those in
        which a call is blocked for good, and nothing is expected of it."""
        found = self._found.values()
        breaking = [outcome for outcome in found if outcome.is_breaking]
        return breaking or [outcome for outcome in found if outcome.is_stuck]

    def _columns(self) -> Iterator[tuple[ExpectedCall, Answers]]:
        """Yields each call with what it comes to in the outcomes, if there are any."""
        yield from zip(self.calls, zip(*self._found))

    def _differs(self, place: int, answer: str) -> bool:
        return any(answers[place] != answer for answers in self._found)
