"""Where the waits of a recording go in its script.

A wait goes where it began, so that two which stood against one another do so in the script. But
while it stood another may have got a lock that keeps it waiting. The kernel lets one that asks go
first, where the cluster would have served the wait. Then the wait goes behind the last such call.
"""

from __future__ import annotations

from typing import NamedTuple, Optional

from nuvatsimo.strace.happenings import LockCall, Step
from nuvatsimo.texts import span_of


class Asked(NamedTuple):
    """A lock call of a process on a file, and its answer, as a reply of a script says it."""

    pid: int
    path: str
    call: LockCall
    answer: Optional[str]

    def is_before(self, wait: Asked) -> bool:
        """Says whether a wait that stood while this was answered had no lock by then."""
        call, other = self.call, wait.call
        if self.path != wait.path or self.pid == wait.pid:
            return False
        if not (self.answer == "free" or (self.answer == "done" and call.mode is not None)):
            return False
        lo, hi = span_of(call.start, call.length)
        first, last = span_of(other.start, other.length)
        return lo <= last and first <= hi and "write" in (call.mode, other.mode)


class Waits:
    """Takes the lock calls of a recording, by the places of their steps."""

    def __init__(self) -> None:
        # The calls that did not return so far, by who made them and where they began.
        self._open: dict[tuple[int, int], tuple[int, Asked]] = {}
        self._waits: dict[int, Asked] = {}
        # By the place of a wait the place behind which it goes.
        self._behind: dict[int, int] = {}

    def ask(self, place: int, step: Step, asked: Asked) -> None:
        """A lock call is made, in the step of this place."""
        self._open[step.pid, step.begin] = place, asked
        if asked.call.wish == "wait":
            self._waits[place] = asked

    def back(self, place: int, step: Step) -> None:
        """A lock call returned, in the step of this place."""
        at, asked = self._open.pop((step.pid, step.begin), (place, None))
        self._waits.pop(at, None)
        if asked is None:
            return
        for wait, other in self._waits.items():
            if asked.is_before(other):
                self._behind[wait] = place

    def moved(self, steps: list[Step]) -> list[Step]:
        """Returns the steps in the order in which they go."""
        if not self._behind:
            return steps
        behind: dict[int, list[Step]] = {}
        for wait, place in sorted(self._behind.items()):
            behind.setdefault(place, []).append(steps[wait])
        moved = []
        for place, step in enumerate(steps):
            if place not in self._behind:
                moved.append(step)
            moved += behind.get(place, ())
        return moved
