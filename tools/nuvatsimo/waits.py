"""Finds the cycles of waits that stood in a run, and from which entry to which.

A wait waits for the owners of the locks in its way: for their process, or for each process that
shares an open file description. Where several share one, each of them could unlock it, so a cycle
through it is a possible one.
"""

from __future__ import annotations

from collections.abc import Iterator
from dataclasses import dataclass
from typing import Any, NamedTuple, Optional

from nuvatsimo.journal import Entry
from nuvatsimo.pictures.calls import Call, Calls
from nuvatsimo.pictures.descriptors import Place
from nuvatsimo.taken import TakenLocks
from nuvatsimo.texts import span_of

# A host, and the number of a process there.
Process = tuple[str, str]


class Wait(NamedTuple):
    """An open wait: the file and the owner, and which bytes it wants in which mode."""

    place: Place
    mode: str
    lo: int
    hi: int


@dataclass
class Cycle:
    """Calls of which each waits for the next, and the last for the first.

    It stood behind the entries from `begin` on, up to `end` where it stands no more.
    """

    calls: list[str]
    is_certain: bool
    begin: int
    end: Optional[int] = None

    def text(self) -> str:
        """Returns the line that tells it."""
        until = f"since entry {self.begin}" if self.end is None else self._entries()
        return f"{cycle_words(self.is_certain)} {until}: {waits_text(self.calls)}"

    def document(self) -> dict[str, Any]:
        """Returns it for JSON."""
        stood = {"first": self.begin, "last": self.end}
        return {"calls": self.calls, "possible": not self.is_certain, **stood}

    def _entries(self) -> str:
        if self.begin == self.end:
            return f"behind entry {self.begin}"
        return f"from entry {self.begin} to {self.end}"


def cycle_words(is_certain: bool) -> str:
    """Returns what a cycle is called."""
    return "cycle" if is_certain else "possible cycle"


def waits_text(calls: list[str]) -> str:
    """Says which call of a cycle waits for which."""
    pairs = zip(calls, calls[1:] + calls[:1])
    return ", ".join(f"{one} waits for {other}" for one, other in pairs)


class Waits:
    """Takes the entries of a run, and keeps the cycles that stood so far."""

    def __init__(self) -> None:
        self._calls = Calls()
        self._locks = TakenLocks()
        self._waits: dict[str, Wait] = {}
        self._by_process: dict[Process, str] = {}
        self._standing: list[Cycle] = []
        self.cycles: list[Cycle] = []

    def take(self, entry: Entry) -> None:
        """Takes the next entry."""
        if not (entry.event.startswith(("call ", "declare ")) or entry.answered is not None):
            return
        step = self._calls.take(entry)
        for call in step.ended:
            self._end(call)
        self._locks.follow(entry, step)
        if step.answered is not None:
            self._end(step.answered)
        if self._standing:
            self._look_again(entry.position)
        begun = []
        if step.made is not None and step.made.reply is None:
            begun = self._begin(step.made)
        elif step.answered is not None and len(self._waits) > 1:
            begun = self._waits_for(step.answered)
        for call in begun:
            self._search(call, entry.position)

    def _begin(self, call: Call) -> list[str]:
        """A call is open. Returns its name, if it is a wait."""
        words = call.operation.split(" ")
        if words[0] != "wait":
            return []
        span = span_of(int(words[-2]), int(words[-1]))
        self._waits[call.name] = Wait(self._locks.place(call), words[3], *span)
        self._by_process[call.host, call.pid] = call.name
        return [call.name]

    def _end(self, call: Call) -> None:
        if self._waits.pop(call.name, None) is not None:
            self._by_process.pop((call.host, call.pid), None)

    def _waits_for(self, call: Call) -> list[str]:
        """Returns the waits of processes that share the owner of a lock that a call got."""
        if call.reply != "done" or not call.operation.startswith(("set ", "wait ")):
            return []
        users = self._locks.users(self._locks.place(call)[1])
        return [self._by_process[user] for user in users if user in self._by_process]

    def _search(self, call: str, position: int) -> None:
        """Looks for a cycle through a call that is in none."""
        if any(call in cycle.calls for cycle in self._standing):
            return
        for is_certain in (True, False):
            found = self._through(call, is_certain)
            if found:
                cycle = Cycle(found, is_certain, position)
                self._standing.append(cycle)
                self.cycles.append(cycle)
                return

    def _through(self, call: str, is_certain: bool) -> list[str]:
        """Returns the calls of a cycle through a call, or none."""
        walk, ways, met = [call], [self._waited_for(call, is_certain)], {call}
        while ways:
            other = next(ways[-1], None)
            if other is None:
                ways.pop()
                walk.pop()
            elif other == call:
                return walk
            elif other not in met:
                met.add(other)
                walk.append(other)
                ways.append(self._waited_for(other, is_certain))
        return []

    def _waited_for(self, call: str, is_certain: bool) -> Iterator[str]:
        """Yields the calls that a wait waits for: with `is_certain` where nobody else can help."""
        for owner in self._locks.blocking(*self._waits[call]):
            users = self._locks.users(owner)
            if len(users) == 1 or not is_certain:
                yield from (self._by_process[it] for it in users if it in self._by_process)

    def _look_again(self, position: int) -> None:
        """Ends the cycles that stand no more. One that gets certain ends, and another begins."""
        for cycle in list(self._standing):
            is_so = self._stands(cycle.calls, cycle.is_certain)
            is_sure = is_so and not cycle.is_certain and self._stands(cycle.calls, True)
            if is_so and not is_sure:
                continue
            cycle.end = position - 1
            self._standing.remove(cycle)
            if is_sure:
                self._standing.append(Cycle(cycle.calls, True, position))
                self.cycles.append(self._standing[-1])

    def _stands(self, calls: list[str], is_certain: bool) -> bool:
        return all(
            one in self._waits and other in self._waited_for(one, is_certain)
            for one, other in zip(calls, calls[1:] + calls[:1])
        )
