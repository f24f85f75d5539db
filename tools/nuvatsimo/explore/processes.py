"""The processes of a schedule, and which of them may go on."""

from __future__ import annotations

from bisect import bisect_left, insort
from collections import deque
from collections.abc import Iterator
from typing import Optional

from nuvatsimo.explore.playing import Made
from nuvatsimo.scripts import Call, ScriptLine
from nuvatsimo.texts import node_of


class Process:
    """A process, the lines of the calls that it is still to make, and the one that is open."""

    def __init__(self, node: int, number: int) -> None:
        self.node = node
        self.number = number
        self.lines: deque[str] = deque()
        self.open: Optional[str] = None


class Places:
    """A set of places, in ascending order."""

    def __init__(self) -> None:
        self._places: list[int] = []

    def __len__(self) -> int:
        return len(self._places)

    def __getitem__(self, index: int) -> int:
        return self._places[index]

    def put(self, place: int, is_in: bool) -> None:
        """The place is in the set from now on, or it is not."""
        at = bisect_left(self._places, place)
        was_in = at < len(self._places) and self._places[at] == place
        if is_in and not was_in:
            insort(self._places, place)
        elif was_in and not is_in:
            del self._places[at]


class Processes:
    """The processes in the order of their first calls, each at a place from 0."""

    def __init__(self) -> None:
        self._parts: list[Process] = []
        self._places: dict[tuple[int, int], int] = {}
        self._callers: dict[str, int] = {}
        self._ready = Places()
        self._open = Places()

    def __len__(self) -> int:
        return len(self._parts)

    def node_at(self, place: int) -> int:
        """Returns the node of the process at a place."""
        return self._parts[place].node

    def count_ready(self) -> int:
        """Counts those that may make their next call."""
        return len(self._ready)

    def is_any_open(self) -> bool:
        """Says whether a process has an open call."""
        return len(self._open) > 0

    def next_ready(self, index: int) -> str:
        """Takes the line of the next call of the process at this index of those that may go on."""
        place = self._ready[index]
        line = self._parts[place].lines.popleft()
        self._note(place)
        return line

    def add_call(self, line: ScriptLine, call: Call) -> None:
        """A process is to make one call more."""
        key = call.node, call.process
        if key not in self._places:
            self._places[key] = len(self._parts)
            self._parts.append(Process(*key))
        place = self._places[key]
        self._parts[place].lines.append(line.text)
        self._note(place)

    def see(self, entry: Made) -> bool:
        """Takes note of an entry, and says whether it answers an open call.

        A call is open from where it is made to its reply, or to the failure of its node.
        """
        word, _, rest = entry.event.partition(" ")
        if word == "call":
            name, process, _ = rest.split(" ", 2)
            self._begin(name, self._places[node_of(name), int(process)])
        elif word == "declare":
            for place, part in enumerate(self._parts):
                if part.node == node_of(rest):
                    self._end(place)
        place_of_caller = self._callers.get(entry.answered or "")
        if place_of_caller is None:
            return False
        self._end(place_of_caller)
        return True

    def retries(self) -> Iterator[str]:
        """Yields the lines by which open calls are tried again."""
        for index in range(len(self._open)):
            part = self._parts[self._open[index]]
            yield f"retry {part.node} {part.number}"

    def _begin(self, name: str, place: int) -> None:
        self._end(place)
        self._callers[name] = place
        self._parts[place].open = name
        self._note(place)

    def _end(self, place: int) -> None:
        part = self._parts[place]
        if part.open is not None:
            del self._callers[part.open]
            part.open = None
            self._note(place)

    def _note(self, place: int) -> None:
        part = self._parts[place]
        self._ready.put(place, part.open is None and bool(part.lines))
        self._open.put(place, part.open is not None)
