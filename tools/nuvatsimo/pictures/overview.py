"""Draws the overview of a long journal as SVG: its entries in columns, with counts."""

from __future__ import annotations

from collections.abc import Iterator
from typing import Optional

from nuvatsimo.journal import Entry, Source
from nuvatsimo.pictures import svg
from nuvatsimo.pictures.actors import lanes, taker_of
from nuvatsimo.pictures.calls import Calls
from nuvatsimo.pictures.held import Held
from nuvatsimo.pictures.runs import Run
from nuvatsimo.pictures.style import OVERVIEW_LEGEND, STYLE
from nuvatsimo.texts import actor_of, node_of

MOST_COLUMNS = 400
LEFT = 130
COLUMN = 4
TOP = 56
ROW = 52
NAMED = 20
_HEIGHT = 10
_MARK_HEIGHT = 48
_LEAST_WIDTH = 640
# What a row counts in a column: the class of its box, and how far below the row's top it ends.
_BOXES = (("calls", 12), ("sent", 24), ("received", 36), ("held", 48))
_FAILURES = ("declare", "restart", "fail-server", "start-server")


class Tally:
    """What happens at a node or a server in a column.

    These are the calls that it takes, the messages that it sends and that come to it, the
    failures and starts of its own, and the locks of its owners or on its file at the end.
    """

    __slots__ = ("calls", "sent", "received", "failures", "held")

    def __init__(self) -> None:
        self.calls = self.sent = self.received = self.failures = self.held = 0

    def is_empty(self) -> bool:
        """Tells whether nothing happens, and no lock is there."""
        return not (self.calls or self.sent or self.received or self.failures or self.held)


class Column:
    """The entries from one place to another, and a tally by the name of who takes part."""

    def __init__(self, first: int) -> None:
        self.first = first
        self.last = first
        self.tallies: dict[str, Tally] = {}

    def of(self, name: str) -> Tally:
        """Returns the tally of a node or a server."""
        tally = self.tallies.get(name)
        if tally is None:
            tally = self.tallies[name] = Tally()
        return tally

    def take(self, entry: Entry, taker: str) -> None:
        """Takes the next entry of the column, with who takes its event."""
        self.last = entry.position
        tally = self.of(taker)
        tally.sent += len(entry.sends)
        kind = entry.kind
        if kind == "call":
            tally.calls += 1
        elif kind == "deliver":
            tally.received += 1
        elif kind in _FAILURES:
            tally.failures += 1


class Overview:
    """What an overview of a journal shows: columns of `size` entries each."""

    def __init__(self, count: int) -> None:
        self.size = max(-(-count // MOST_COLUMNS), 1)
        self.columns: list[Column] = []
        self.actors: list[str] = []
        self._count = count
        self._locks: dict[str, int] = {}

    def read(self, source: Source) -> None:
        """Reads an audited journal."""
        calls, held = Calls(), Held(self._note)
        busy: set[str] = set()  # a message that comes was sent by one who took an entry before
        for entry in source.entries(is_audited=True):
            held.take(entry, calls.take(entry))
            taker = taker_of(entry.event)
            busy.update((taker, *map(actor_of, entry.sends)))
            if (entry.position - 1) % self.size == 0:
                self.columns.append(Column(entry.position))
            self.columns[-1].take(entry, taker)
            if entry.position % self.size == 0 or entry.position == self._count:
                self._end_column()
        above, servers, below = lanes(busy)
        self.actors = [*above, *servers, *below]

    def _note(self, kind: str, file: int, holder: str, gone: list[Run], new: list[Run]) -> None:
        if kind == "lock":
            node = node_of(holder.partition("@")[2])
            for name in (f"node {node}", f"server {file}"):
                self._locks[name] = self._locks.get(name, 0) + len(new) - len(gone)

    def _end_column(self) -> None:
        for name, count in self._locks.items():
            if count:
                self.columns[-1].of(name).held = count


def overview(shown: Overview) -> Iterator[str]:
    """Yields the overview in pieces."""
    right = _left_of(len(shown.columns))
    yield svg.size(max(right, _LEAST_WIDTH) + 16, _top_of(len(shown.actors)) + 16)
    yield STYLE + OVERVIEW_LEGEND
    noun = "entry" if shown.size == 1 else "entries"
    text = f"{shown.size} {noun} a column: --around CALL draws those about a call in full"
    yield svg.label("size", LEFT, 17, text) + "\n"
    for number, actor in enumerate(shown.actors):
        foot = _top_of(number) + ROW - 2
        name = svg.label("lane", 12, _top_of(number) + 21, actor)
        yield name + svg.line("edge", LEFT, foot, right, foot) + "\n"
    for number, column in enumerate(shown.columns[::NAMED]):
        x = _left_of(NAMED * number) + COLUMN // 2
        yield svg.label("number", x, TOP - 4, str(column.first)) + "\n"
    yield from _columns(shown)
    yield "</svg>\n"


def _left_of(number: int) -> int:
    return LEFT + COLUMN * number


def _top_of(number: int) -> int:
    return TOP + ROW * number


def _columns(shown: Overview) -> Iterator[str]:
    """Draws what happens in each column, with a line across where something fails or starts."""
    tallies = [tally for column in shown.columns for tally in column.tallies.values()]
    most = {
        kind: max([1, *(getattr(tally, kind) for tally in tallies)]) for kind, _ in _BOXES
    }  # fmt: skip
    for number, column in enumerate(shown.columns):
        left = _left_of(number)
        if any(tally.failures for tally in column.tallies.values()):
            x = left + COLUMN // 2
            yield svg.line("rule", x, TOP, x, _top_of(len(shown.actors))) + "\n"
        for row, actor in enumerate(shown.actors):
            tally = column.tallies.get(actor)
            if tally is not None and not tally.is_empty():
                yield _tally(column, actor, tally, (left, _top_of(row)), most)


def _tally(
    column: Column, actor: str, tally: Tally, corner: tuple[int, int], most: dict[str, int]
) -> str:
    """Draws a tally, with the left top corner of its row in the column."""
    left, top = corner
    title = (
        f"{actor}, entries {column.first} to {column.last}: calls {tally.calls}, "
        f"sent {tally.sent}, received {tally.received}, "
        f"failures and starts {tally.failures}, locks {tally.held}"
    )
    drawn = svg.box("rule-name", left, top, COLUMN, _MARK_HEIGHT) if tally.failures else ""
    for kind, foot in _BOXES:
        height = _height(getattr(tally, kind), most[kind])
        if height:
            drawn += svg.box(kind, left, top + foot - height, COLUMN, height)
    return svg.titled(title, drawn)


def _height(number: int, most: int) -> int:
    """Returns how high a number is drawn: 0 alone is left out."""
    return max(_HEIGHT * number // most, 1) if number else 0


def count_of(path: str) -> Optional[int]:
    """Returns how many entries a journal has, by its last line; None where it has no such."""
    try:
        with open(path, "rb") as file:
            file.seek(max(file.seek(0, 2) - 32, 0))
            words = file.read().rpartition(b"\nend ")[2].split()
    except OSError:
        return None
    return int(words[0]) if len(words) == 1 and words[0].isdigit() else None
