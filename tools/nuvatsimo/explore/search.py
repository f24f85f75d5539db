"""Goes through all situations to which the schedules of a script lead, the nearest first."""

from __future__ import annotations

import hashlib
from collections import deque
from collections.abc import Iterator
from typing import NamedTuple, Optional

from nuvatsimo.explore.actors import Actors, Input, World, actors_of
from nuvatsimo.explore.left_open import Left, left_behind
from nuvatsimo.explore.outcomes import Outcomes
from nuvatsimo.explore.playing import Made
from nuvatsimo.explore.situations import Limits, Rules, Situation, Step
from nuvatsimo.progress import Progress
from nuvatsimo.scripts import Script


class Found(NamedTuple):
    """What the search found: how many states, whether it went through all of them, and the lines
    of a shortest schedule that is not as expected, behind the cluster line."""

    states: int
    is_whole: bool
    schedule: Optional[list[str]]


def search_all(outcomes: Outcomes, script: Script, limits: Limits) -> Found:
    """Finds what the calls come to in every schedule of the script, within the limits."""
    with actors_of(script.shape) as actors:
        return Search(outcomes, script, limits, actors).run()


class Search:
    """The states that were found. Each but the first has the state before it, and the step."""

    def __init__(
        self, outcomes: Outcomes, script: Script, limits: Limits, actors: Actors
    ) -> None:
        self._outcomes = outcomes
        self._limits = limits
        self._actors = actors
        self._rules = Rules(script, limits, actors)
        self._before: list[int] = [-1]
        self._lines: list[Optional[str]] = [None]
        self._made: list[Optional[Made]] = [None]
        self._keys: set[bytes] = set()
        self._left: dict[World, Left] = {}
        self._todo: deque[tuple[int, Situation]] = deque()

    def run(self) -> Found:
        """Goes through the states, up to the limit. Those beyond it are only looked at."""
        first = self._rules.first()
        self._keys.add(_digest_of(first))
        self._todo.append((0, first))
        done = 0
        with Progress("exploring states", self._limits.states) as progress:
            while self._todo and done < self._limits.states:
                self._expand(*self._todo.popleft())
                done += 1
                progress.at(done)
        is_whole = not self._todo
        for place, here in self._todo:
            if self._rules.is_end(here, lambda: self._left_at(place, here)):
                self._end(place, here)
        return Found(len(self._before), is_whole, self._wanting())

    def _expand(self, place: int, here: Situation) -> None:
        """Finds the states to which one leads. Where there is none, a schedule ends."""
        is_end = True
        steps = self._rules.steps(
            here, lambda: self._inputs(place), lambda: self._left_at(place, here)
        )
        for step in steps:
            is_end = False
            self._add(place, step)
        if is_end:
            self._end(place, here)

    def _add(self, place: int, step: Step) -> None:
        digest = _digest_of(step.behind)
        if digest in self._keys:
            return
        self._keys.add(digest)
        self._todo.append((len(self._before), step.behind))
        self._before.append(place)
        self._lines.append(step.line)
        self._made.append(step.made)

    def _end(self, place: int, here: Situation) -> None:
        """A schedule ends here: it comes to an outcome."""
        left = self._left_at(place, here) if here.open_calls() else Left(frozenset(), {})
        outcome = self._outcomes.come(here.answers(left))
        if outcome.place is None:
            outcome.place = place

    def _left_at(self, place: int, here: Situation) -> Left:
        """Returns what is known of the calls that are open in a state."""
        left = self._left.get(here.world)
        if left is None:
            made = (self._made[at] for at in self._path(place))
            entries = [entry for entry in made if entry is not None]
            left = self._left[here.world] = left_behind(self._actors.head, entries)
        return left

    def _path(self, place: int) -> list[int]:
        """Returns the places of the states that lead to one, without the first."""
        places = []
        while place:
            places.append(place)
            place = self._before[place]
        return places[::-1]

    def _inputs(self, place: int) -> Iterator[Input]:
        """Yields the inputs that lead to a state, each with its line."""
        for at in self._path(place):
            made, line = self._made[at], self._lines[at]
            if made is not None and line is not None:
                yield line, made.event if line.startswith("deliver ") else line

    def _wanting(self) -> Optional[list[str]]:
        """Returns the lines of the first schedule that breaks what is expected, or else of the
        first one that leaves a call blocked for good, where nothing is expected."""
        wanting = self._outcomes.wanting()
        if not wanting:
            return None
        place = min(outcome.place or 0 for outcome in wanting)
        lines = (self._lines[at] for at in self._path(place))
        return [line for line in lines if line is not None]


def _digest_of(here: Situation) -> bytes:
    return hashlib.blake2b(here.key().encode(), digest_size=16).digest()
