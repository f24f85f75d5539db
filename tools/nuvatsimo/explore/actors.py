"""Asks the program what each actor makes of what comes to it.

An actor is a node, a token server, or the members' list of who failed and began again. What an
actor makes of an input follows from the inputs that it took before, in their order, and from
what the list took before each of them. So the program is asked once for each input behind the
same earlier ones, and its answer stands for all schedules in which that comes again.
"""

from __future__ import annotations

from collections import OrderedDict
from collections.abc import Iterable, Iterator
from contextlib import ExitStack, contextmanager
from typing import Callable, NamedTuple, Optional, Tuple

from nuvatsimo.explore.playing import Answer as Played
from nuvatsimo.explore.playing import Made, Play, playing
from nuvatsimo.scripts import ClusterShape
from nuvatsimo.texts import actor_of

# How many scripts are played beside each other.
_MOST_STAGES = 12

MEMBER_WORDS = ("declare", "restart", "fail-server", "start-server")

# Where each actor stands: the number of what it took so far. The members' list is the first.
World = Tuple[int, ...]

# The line of a schedule that gives an input, and the input: the line, but of a message `deliver`
# and its text.
Input = Tuple[str, str]
Path = Callable[[], Iterable[Input]]


class Answer(NamedTuple):
    """What an actor makes of an input: the entry, or the number of the refusal."""

    made: Optional[Made]
    refused: str


class Stage:
    """A script that is being played, where its actors stand, and the numbers of messages."""

    def __init__(self, play: Play, world: World, close: Callable[[], None]) -> None:
        self.play = play
        self.world = world
        self.close = close
        self.numbers: dict[str, int] = {}
        self._sent = 0

    def has(self, taken: str) -> bool:
        """Says whether the input can be given here. A message has to be sent first."""
        return not taken.startswith("deliver ") or taken in self.numbers

    def ask(self, taken: str) -> Answer:
        """Plays an input. Messages that are equal come as the first of them."""
        is_message = taken.startswith("deliver ")
        line = f"deliver {self.numbers[taken]}" if is_message else taken
        return self._noted(self.play.take(line))

    def walk(self, path: list[Input]) -> Iterator[tuple[str, Answer]]:
        """Plays the inputs of a path from the beginning, and yields each with its answer."""
        answers = self.play.take_all([line for line, _ in path])
        for (_, taken), played in zip(path, answers):
            yield taken, self._noted(played)

    def _noted(self, played: Played) -> Answer:
        """Takes note of the messages that a line sends. It makes one entry, or is refused."""
        if played.refused is not None:
            return Answer(None, played.refused)
        made = played.entries[0]
        for message in made.sends:
            self._sent += 1
            self.numbers.setdefault(f"deliver {message}", self._sent)
        return Answer(made, "")


class Actors:
    """The actors of a cluster, in all the places to which schedules lead them."""

    def __init__(self, shape: ClusterShape) -> None:
        self._cluster = shape.text
        self._nodes = shape.nodes
        self.first: World = (0,) * (1 + shape.nodes + shape.files)
        self.head = ""
        self._numbers: dict[tuple[int, int, str], int] = {}
        self._known: dict[tuple[int, int, int, str], Answer] = {}
        self._stages: OrderedDict[int, Stage] = OrderedDict()
        self._count = 0

    def take(
        self, world: World, taken: str, path: Path
    ) -> tuple[World, Answer]:
        """Returns what the input makes in a world, and the world behind it.

        `path` gives the inputs that lead there. It is needed where the program is asked.
        """
        place = self._place_of(taken)
        key = world[0], place, world[place], taken
        answer = self._known.get(key)
        if answer is None:
            answer = self._known[key] = self._asked(world, place, taken, path)
        return self._behind(world, place, taken, answer), answer

    def close(self) -> None:
        """Ends the scripts that are being played."""
        while self._stages:
            self._stages.popitem()[1].close()

    def _place_of(self, taken: str) -> int:
        """Returns the place of the actor that takes an input."""
        word, _, rest = taken.partition(" ")
        actor = actor_of(rest) if word == "deliver" else _TAKERS[word] + rest.partition(" ")[0]
        kind, _, number = actor.partition(" ")
        return int(number) + (self._nodes if kind == "server" else 0)

    def _behind(self, world: World, place: int, taken: str, answer: Answer) -> World:
        """Returns the world behind an input. A refused one changes nothing."""
        if answer.made is None:
            return world
        changed = list(world)
        changed[place] = self._number_of(world[place], world[0], taken)
        if taken.partition(" ")[0] in MEMBER_WORDS:
            changed[0] = self._number_of(world[0], 0, taken)
        return tuple(changed)

    def _number_of(self, before: int, members: int, taken: str) -> int:
        """Returns the number of what an actor took: an input behind what it took before."""
        return self._numbers.setdefault((before, members, taken), len(self._numbers) + 1)

    def _asked(
        self, world: World, place: int, taken: str, path: Path
    ) -> Answer:
        """Asks the program, where a script stands that can go on so, or in a new one."""
        number, stage = self._standing(world, place, taken) or self._started(path())
        self._stages.move_to_end(number)
        answer = stage.ask(taken)
        stage.world = self._behind(stage.world, place, taken, answer)
        return answer

    def _standing(self, world: World, place: int, taken: str) -> Optional[tuple[int, Stage]]:
        for number, stage in self._stages.items():
            stands = stage.world[0] == world[0] and stage.world[place] == world[place]
            if stands and stage.has(taken):
                return number, stage
        return None

    def _started(self, path: Iterable[Input]) -> tuple[int, Stage]:
        """Starts a script, and plays the path in it."""
        if len(self._stages) >= _MOST_STAGES:
            self._stages.popitem(last=False)[1].close()
        stack = ExitStack()
        stage = Stage(stack.enter_context(playing(self._cluster)), self.first, stack.close)
        self._count += 1
        self._stages[self._count] = stage
        self.head = stage.play.head
        for taken, answer in stage.walk(list(path)):
            stage.world = self._behind(stage.world, self._place_of(taken), taken, answer)
        return self._count, stage


# By the first word of an input: which actor takes it, by the number behind the word.
_TAKERS = {
    "call": "node ",
    "retry": "node ",
    "declare": "node ",
    "restart": "node ",
    "resend": "server ",
    "learn": "server ",
    "fail-server": "server ",
    "start-server": "server ",
}


@contextmanager
def actors_of(shape: ClusterShape) -> Iterator[Actors]:
    """Makes the actors of a cluster, and ends what is played for them."""
    actors = Actors(shape)
    try:
        yield actors
    finally:
        actors.close()
