"""Where a schedule of a script stands, and what may come next."""

from __future__ import annotations

from collections.abc import Callable, Iterator
from typing import NamedTuple, Optional, Tuple

from nuvatsimo.explore.actors import Actors, Path, World
from nuvatsimo.explore.left_open import OPEN, Left
from nuvatsimo.explore.outcomes import NOT_MADE, Answers
from nuvatsimo.explore.playing import Made
from nuvatsimo.scripts import Call, Script

# How often, one after the other, what has no answer is asked for again.
_ROUNDS = 8

# The state of an open call: this, and its name.
_OPEN = "="


class Limits(NamedTuple):
    """How many messages may be lost in a schedule, how often messages may come again, and
    after how many states the search ends."""

    losses: int
    repeats: int
    states: int


class Due(NamedTuple):
    """What is under way: an input of an actor, and the number of a message, or 0."""

    number: int
    taken: str

    @property
    def line(self) -> str:
        """The line of a script that makes it come."""
        return f"deliver {self.number}" if self.number else self.taken


class Situation(NamedTuple):
    """Where a schedule stands.

    The phase is the place of the line that ends it. A call is not made, has its answer, or is
    open by its name.
    """

    phase: int
    calls: Tuple[str, ...]
    world: World
    under_way: Tuple[Due, ...]
    losses: int = 0
    repeats: int = 0
    rounds: int = 0
    sent: int = 0

    def key(self) -> str:
        """Returns what two schedules share that stand in the same situation.

        In which order messages were sent that are under way does not matter.
        """
        under_way = sorted(due.taken for due in self.under_way)
        return repr((self.phase, self.calls, self.world, under_way, self[4:7]))

    def open_calls(self) -> list[str]:
        """Returns the names of the calls that are open."""
        return [state[1:] for state in self.calls if state.startswith(_OPEN)]

    def answers(self, left: Left) -> Answers:
        """Returns what the calls come to where a schedule ends here."""
        return tuple(
            left.answer(state[1:]) if state.startswith(_OPEN) else state for state in self.calls
        )


class Step(NamedTuple):
    """A step of a schedule: its line and the entry that it makes, if there are any."""

    line: Optional[str]
    made: Optional[Made]
    behind: Situation


class Plan(NamedTuple):
    """A call of the script: the place of its line, the line, its process with the node, and the
    call of that process before it, by its place among the calls."""

    place: int
    line: str
    process: str
    before: Optional[int]


class Rules:
    """What may come next in schedules of a script."""

    def __init__(self, script: Script, limits: Limits, actors: Actors) -> None:
        self._script = script
        self._limits = limits
        self._actors = actors
        self._calls = list(_plans_of(script))

    def first(self) -> Situation:
        """Returns where each schedule begins."""
        calls = (NOT_MADE,) * len(self._calls)
        return Situation(self._phase_end(0), calls, self._actors.first, ())

    def steps(self, here: Situation, path: Path, left: Callable[[], Left]) -> Iterator[Step]:
        """Yields the steps that may come next. There is none where the schedule ends."""
        if not self.is_quiet(here):
            yield from self._moves(here, path)
            return
        asked = self._asked_again(here, left) if self._may_ask(here) else None
        if asked is not None:
            yield Step(None, None, asked)
        elif here.phase < len(self._script.lines):
            yield self._turn(here, path)

    def is_end(self, here: Situation, left: Callable[[], Left]) -> bool:
        """Says whether a schedule ends here."""
        if not self.is_quiet(here) or here.phase < len(self._script.lines):
            return False
        return not self._may_ask(here) or self._asked_again(here, left) is None

    def is_quiet(self, here: Situation) -> bool:
        """Says whether no call may be made, and nothing is under way."""
        return not here.under_way and not any(self._may_make(here))

    def _may_make(self, here: Situation) -> Iterator[bool]:
        """Yields of each call whether it may be made."""
        for plan, state in zip(self._calls, here.calls):
            is_free = plan.before is None or _has_ended(here.calls[plan.before])
            yield plan.place < here.phase and state == NOT_MADE and is_free

    def _may_ask(self, here: Situation) -> bool:
        return here.rounds < _ROUNDS and bool(here.open_calls())

    def _moves(self, here: Situation, path: Path) -> Iterator[Step]:
        """Yields calls, and what is under way, as it comes, is lost or comes again."""
        for at, may_make in enumerate(self._may_make(here)):
            if may_make:
                yield self._make(here, at, path)
        for at, due in enumerate(here.under_way):
            taken = here._replace(under_way=here.under_way[:at] + here.under_way[at + 1 :])
            yield self._happen(taken, due.line, due.taken, path)
        messages = [(at, due) for at, due in enumerate(here.under_way) if due.number]
        for at, due in messages if here.losses < self._limits.losses else ():
            under_way = here.under_way[:at] + here.under_way[at + 1 :]
            lost = here._replace(under_way=under_way, losses=here.losses + 1)
            yield Step(f"lose {due.number}", None, lost)
        for at, due in messages if here.repeats < self._limits.repeats else ():
            again = here._replace(repeats=here.repeats + 1)
            yield self._happen(again, due.line, due.taken, path)

    def _make(self, here: Situation, at: int, path: Path) -> Step:
        """Makes a call."""
        line = self._calls[at].line
        world, answer = self._actors.take(here.world, line, path)
        if answer.made is None:
            calls = _changed(here.calls, at, f"refused {answer.refused}")
            return Step(line, None, here._replace(calls=calls))
        name = answer.made.event.split(" ", 2)[1]
        opened = here._replace(world=world, calls=_changed(here.calls, at, _OPEN + name))
        return Step(line, answer.made, self._noted(opened, answer.made))

    def _happen(self, here: Situation, line: str, taken: str, path: Path) -> Step:
        """An input comes. A refused one changes nothing."""
        world, answer = self._actors.take(here.world, taken, path)
        if answer.made is None:
            return Step(line, None, here)
        return Step(line, answer.made, self._noted(here._replace(world=world), answer.made))

    def _noted(self, here: Situation, made: Made) -> Situation:
        """Takes note of an entry: what it puts under way, and which calls it ends."""
        due = [
            Due(here.sent + number, f"deliver {message}")
            for number, message in enumerate(made.sends, 1)
        ]
        calls, rounds = here.calls, here.rounds
        if made.event.startswith("declare "):
            node, _, incarnation = made.event[8:].partition(".")
            files = range(1, self._script.shape.files + 1)
            due += (Due(0, f"learn {file} {node} {incarnation}") for file in files)
            calls = tuple(OPEN if state.startswith(f"={node}.") else state for state in calls)
        if made.answered is not None and _OPEN + made.answered in calls:
            calls = _changed(calls, calls.index(_OPEN + made.answered), made.reply)
            rounds = 0
        return here._replace(
            calls=calls,
            rounds=rounds,
            under_way=(*here.under_way, *due),
            sent=here.sent + len(made.sends),
        )

    def _asked_again(self, here: Situation, left: Callable[[], Left]) -> Optional[Situation]:
        """Tries open calls again that no lock blocks, and has their servers send again.

        Returns None where there is no such call.
        """
        undelivered = left().undelivered
        names = [name for name in here.open_calls() if name in undelivered]
        if not names:
            return None
        callers = zip(self._calls, here.calls)
        due = [Due(0, f"retry {it.process}") for it, state in callers if state[1:] in undelivered]
        files = sorted({undelivered[name] for name in names})
        due += (Due(0, f"resend {file}") for file in files)
        return here._replace(under_way=tuple(due), rounds=here.rounds + 1)

    def _turn(self, here: Situation, path: Path) -> Step:
        """Gives the line that ends the phase its turn."""
        line = self._script.lines[here.phase].text
        behind = here._replace(phase=self._phase_end(here.phase + 1), rounds=0)
        if line == "settle":
            return Step(line, None, behind)
        return self._happen(behind, line, line, path)

    def _phase_end(self, start: int) -> int:
        """Returns the place of the first line from there on that is no call."""
        lines = self._script.lines
        places = range(start, len(lines))
        return next((at for at in places if not isinstance(lines[at].command, Call)), len(lines))


def _plans_of(script: Script) -> Iterator[Plan]:
    """Yields the calls of a script."""
    last: dict[str, int] = {}
    count = 0
    for place, line in enumerate(script.lines):
        call = line.command
        if isinstance(call, Call):
            process = f"{call.node} {call.process}"
            yield Plan(place, line.text, process, last.get(process))
            last[process] = count
            count += 1


def _has_ended(state: str) -> bool:
    """Says whether a call was made, and is not open."""
    return state != NOT_MADE and not state.startswith(_OPEN)


def _changed(calls: Tuple[str, ...], at: int, state: str) -> Tuple[str, ...]:
    return (*calls[:at], state, *calls[at + 1 :])
