"""Tells what is known, where a schedule ends, of the calls that are open there."""

from __future__ import annotations

from collections.abc import Iterable, Mapping
from typing import NamedTuple

from nuvatsimo.explore.playing import Made, state_behind
from nuvatsimo.places import World
from nuvatsimo.states import document_of

OPEN = "open"
BLOCKED = "open, blocked for good"
UNDELIVERED = "open, not delivered yet"
OPEN_ANSWERS = frozenset((OPEN, BLOCKED, UNDELIVERED))


class Left(NamedTuple):
    """The open calls of live nodes about files whose servers work: waits that locks of other
    owners block, and the others with their files."""

    held: frozenset[str]
    undelivered: Mapping[str, int]

    def answer(self, call: str, is_whole: bool = True) -> str:
        """Returns what an open call comes to in a schedule that is whole or cut short.

        It is blocked for good where no other call is undelivered: then no lock goes any more.
        """
        if call in self.undelivered:
            return UNDELIVERED
        is_for_good = is_whole and not self.undelivered and call in self.held
        return BLOCKED if is_for_good else OPEN


def left_behind(head: str, entries: Iterable[Made]) -> Left:
    """Asks the program what the calls come to that are open behind these entries."""
    lines = state_behind(head, entries)
    world = World(lines)
    epochs = document_of([line for line in lines if line.startswith("server ")])["epochs"]
    works = {epoch["file"] for epoch in epochs if epoch["works"] is not None}
    served = [call for call in world.calls.values() if call.file in works]
    held = {call.name for call in served if call.asks == "wait" and world.blocking(call)}
    others = {call.name: call.file for call in served if call.name not in held}
    return Left(frozenset(held), others)
