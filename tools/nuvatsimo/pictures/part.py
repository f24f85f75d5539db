"""The part of a journal that a picture shows, read in one pass."""

from __future__ import annotations

from collections.abc import Iterable, Iterator
from typing import NamedTuple, Optional

from nuvatsimo.journal import Entry, Source
from nuvatsimo.pictures.actors import RULES, taker_of
from nuvatsimo.pictures.calls import Call, Calls, Step
from nuvatsimo.pictures.held import Held, Wait
from nuvatsimo.pictures.stays import Lives, Track
from nuvatsimo.texts import call_of
from nuvatsimo.waits import Waits

COMES, IS_LATE, IS_UNDELIVERED = "comes", "is late", "is undelivered"


class Window(NamedTuple):
    """The places of the first and the last entry that are asked for, counted from 1."""

    first: int
    last: int

    def has(self, position: int) -> bool:
        """Tells whether a place lies in it."""
        return self.first <= position <= self.last


class Part:
    """The entries of a window, and what belongs to them.

    `calls` are those that are made in the window, or before it and over in it or behind it.
    `blockers` has by a waiting call the first lock that blocks it there. `origins` has by the
    place of an entry where the message that comes there was sent last.
    """

    def __init__(self, window: Window) -> None:
        self.window = window
        self.count = 0
        self.entries: list[Entry] = []
        self.calls: list[Call] = []
        self.blockers: dict[str, str] = {}
        self.origins: dict[int, int] = {}
        self.tracks: list[Track] = []
        # By the calls that stood in cycles of waits, what each such cycle is.
        self.cycles: dict[str, str] = {}
        # By actors the stretches where each was dead: its first place, and the one behind it.
        self.deaths: dict[str, list[tuple[int, int]]] = {}
        self._dead: dict[str, int] = {}
        self._sent: dict[str, int] = {}
        self._watched: set[str] = set()
        self._comes: dict[str, int] = {}
        self._late: set[str] = set()

    def fate_of(self, position: int, message: str) -> str:
        """Returns what becomes of a message that the entry at this place sends."""
        if self._comes.get(message, 0) > position:
            return COMES
        return IS_LATE if message in self._late else IS_UNDELIVERED

    def read(self, source: Source, has_holders: bool) -> None:
        """Reads an audited journal: with what nodes hold, where the picture shows that."""
        calls = Calls()
        holders = _Holders(source, self.window) if has_holders else None
        waits = Waits()
        is_begun = False
        for entry in source.entries(is_audited=True):
            self.count = entry.position
            if entry.position >= self.window.first and not is_begun:
                is_begun = True
                self.calls = calls.open()
            step = calls.take(entry)
            if holders is not None and entry.position <= self.window.last:
                holders.take(entry, step)
                waits.take(entry)
                self._note_death(entry)
            self._take(entry, step)
        self.cycles = {call: cycle.text() for cycle in waits.cycles for call in cycle.calls}
        self._end(holders)

    def _take(self, entry: Entry, step: Step) -> None:
        position = entry.position
        if position > self.window.last:
            if entry.comes in self._watched:
                self._late.add(entry.comes or "")
            return
        if position >= self.window.first:
            self.entries.append(entry)
            self.calls += [step.made] if step.made is not None else []
            self._note_arrival(entry)
            self._watched.update(entry.sends)
        for message in entry.sends:
            self._sent[message] = position

    def _note_death(self, entry: Entry) -> None:
        """Takes note of an actor that dies or begins again."""
        if entry.kind not in RULES:
            return
        actor, position = taker_of(entry.event), entry.position
        if entry.kind in ("declare", "fail-server"):
            self._dead.setdefault(actor, position)
        elif actor in self._dead:
            since = self._dead.pop(actor)
            if position >= self.window.first:
                self.deaths.setdefault(actor, []).append((since, position))

    def _note_arrival(self, entry: Entry) -> None:
        message = entry.comes
        if message is None:
            return
        if message in self._sent:
            self.origins[entry.position] = self._sent[message]
        if message in self._watched:
            self._comes[message] = entry.position

    def _end(self, holders: Optional[_Holders]) -> None:
        self.window = Window(max(self.window.first, 1), min(self.window.last, self.count))
        first, last = self.window
        for actor, since in self._dead.items():
            self.deaths.setdefault(actor, []).append((since, last + 1))
        self.calls = [
            call
            for call in self.calls
            if call.position <= last and (call.position >= first or call.over_at is not None)
        ]
        self._sent = {}
        if holders is not None:
            self.blockers = holders.blockers
            self.tracks = holders.lives.tracks(last)


class _Holders:
    """Follows what nodes hold behind the entries of a window."""

    def __init__(self, source: Source, window: Window) -> None:
        self._source = source
        self._first = window.first
        self.lives = Lives(window.first)
        self._held = Held(self.lives.note)
        self.blockers: dict[str, str] = {}
        self._seen: set[str] = set()

    def take(self, entry: Entry, step: Step) -> None:
        """Takes the next entry of the journal."""
        if entry.position < self._first:
            self._held.pass_over(entry, step)
            return
        if entry.position == self._first and self._first > 1:
            self._held.begin(self._source.state(self._first - 1))
        self.lives.position = entry.position
        self._held.take(entry, step)
        for wait in self._held.waits.values():
            is_new = wait.call not in self._seen or wait.file in self._held.changed
            if is_new and wait.call not in self.blockers:
                self._seen.add(wait.call)
                self._note_blocker(wait)

    def _note_blocker(self, wait: Wait) -> None:
        lock = self._held.first_blocker(wait)
        if lock is not None:
            self.blockers[wait.call] = lock


def around(entries: Iterable[Entry], call: str) -> Optional[tuple[int, int]]:
    """Returns the places of the first and the last entry that belong to a call, or None.

    An entry belongs to the call that it makes or replies to, or that a message names which
    comes there or is sent.
    """
    places = [entry.position for entry in _naming(entries, call) if belongs(entry, call)]
    return (places[0], places[-1]) if places else None


def belongs(entry: Entry, call: str) -> bool:
    """Tells whether an entry belongs to a call."""
    if call in (entry.made, entry.answered):
        return True
    messages = [entry.comes, *entry.sends] if entry.comes is not None else entry.sends
    return any(call_of(message or "") == call for message in messages)


def _naming(entries: Iterable[Entry], call: str) -> Iterator[Entry]:
    """Yields the entries whose texts have the name of the call."""
    for entry in entries:
        texts = (entry.event, entry.answered or "", *entry.sends)
        if any(call in text for text in texts):
            yield entry
