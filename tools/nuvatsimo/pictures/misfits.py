"""Draws a call of a history that fits nowhere, the calls around it, and the tables before it."""

from __future__ import annotations

import math
import re
from bisect import bisect_left
from collections.abc import Iterable, Iterator
from typing import Any, NamedTuple, Optional

from nuvatsimo.pictures import svg
from nuvatsimo.pictures.histories import DROPS, IS_DENIED, ClientCall, History
from nuvatsimo.pictures.misfit_style import LEGEND, STYLE
from nuvatsimo.texts import GREATEST, span_of

# How many calls are drawn that end before the one, and that begin or end behind it.
_BESIDE = 10
# How many locks and open calls of a table are told.
_MOST_TOLD = 20
LEFT = 140
COLUMN = 66
BYTES = 110
TOP = 70
ROW = 38
TRACK = 18
MARGIN = 16
_LETTER = 5
_ESCAPES = {"&": "&amp;", "<": "&lt;", ">": "&gt;", '"': "&quot;", "'": "&apos;"}
_ESCAPED = re.compile("[&<>\"'\x00-\x08\x0b-\x1f\ufffe\uffff]")


class Bar(NamedTuple):
    """A call in a row, over the columns from one to another; without the last to the border."""

    row: int
    first: int
    last: Optional[int]
    call: ClientCall


class Span(NamedTuple):
    """A run of bytes of a table with its class, its title and its words."""

    span: tuple[int, int]
    kind: str
    title: str
    words: str


class Misfit:
    """The picture of the first call of a file that fits nowhere.

    `found` is what the program says of the call: its line, and the tables before it.
    """

    def __init__(self, history: History, file: str, found: dict[str, Any]) -> None:
        self._history = history
        self._line: int = found["line"]
        self._heading = f"line {self._line} fits nowhere, file {file}"
        self._calls = around(_last_ones(history.calls(file)), self._line)
        ends = {call.end for call in self._calls if call.end is not None}
        self._times = sorted(ends.union(call.begin for call in self._calls))
        self._rows: list[str] = []
        self._bars: list[Bar] = []
        for owner in dict.fromkeys(call.owner for call in self._calls):
            self._add_owner(owner)
        self._tables: list[_Table] = []
        for call in self._calls:
            if call.line == self._line:
                self._add_tables(found["tables"], call)
                break
        most_bytes = max((len(table.marks) for table in self._tables), default=0)
        self._right = MARGIN + max(
            LEFT + COLUMN * len(self._times), LEFT + BYTES * most_bytes
        )  # fmt: skip

    def drawn(self) -> Iterator[str]:
        """Yields the picture in pieces."""
        tracks = sum(table.height for table in self._tables)
        below = TOP + ROW * len(self._rows)
        yield svg.size(self._right, below + 2 * MARGIN + TRACK * tracks)
        yield STYLE + LEGEND
        yield svg.label("heading", 12, 36, escaped(self._heading)) + "\n"
        for number, time in enumerate(self._times):
            x, y = LEFT + COLUMN * number + 33, 63 if number % 2 else 52
            yield svg.line("time", x, y + 2, x, below)
            yield svg.label("number", x, y, str(time)) + "\n"
        for number, owner in enumerate(self._rows):
            top = TOP + ROW * number
            yield fitting("owner", 12, top + 22, owner, 100)
            yield svg.line("row", 12, top, self._right, top) + "\n"
        for bar in self._bars:
            yield self._bar(bar)
        top = below + MARGIN
        for table in self._tables:
            yield from table.drawn(top, self._right)
            top += TRACK * table.height
        yield "</svg>\n"

    def _add_owner(self, owner: str) -> None:
        """Adds the bars of an owner, in rows of its own: no two bars of a row overlap."""
        free_from: list[float] = []
        first_row = len(self._rows)
        for call in self._calls:
            if call.owner != owner:
                continue
            first = bisect_left(self._times, call.begin)
            last = None if call.end is None else bisect_left(self._times, call.end)
            row = next((row for row, free in enumerate(free_from) if free <= first), None)
            if row is None:
                row = len(free_from)
                free_from.append(0)
                self._rows.append(owner)
            free_from[row] = math.inf if last is None else last + 1
            self._bars.append(Bar(first_row + row, first, last, call))

    def _add_tables(self, tables: list[dict[str, Any]], call: ClientCall) -> None:
        words = _asked(self._history.line(call.line), call)
        asked = None if call.span is None else Span(call.span, "asked", words, words)
        for number, table in enumerate(tables, 1):
            self._tables.append(_Table(number, table, asked))

    def _bar(self, bar: Bar) -> str:
        call, line = bar.call, self._history.line(bar.call.line)
        left, top = LEFT + COLUMN * bar.first, TOP + ROW * bar.row
        width = self._right - left + 4
        if bar.last is not None:
            width = COLUMN * (bar.last + 1 - bar.first) - 2
        room = width - 10
        box = svg.box(self._kind_of(call), left + 1, top + 4, width, 30)
        first = fitting("word", left + 6, top + 16, _asked(line, call), room)
        answer = f"line {call.line}: {_answer(line, call)}"
        second = fitting("word", left + 6, top + 28, answer, room)
        return svg.titled(escaped(f"line {call.line}: {line}"), box + first + second)

    def _kind_of(self, call: ClientCall) -> str:
        """Returns the class of a call."""
        if call.line == self._line:
            return "misfit"
        if call.end is None:
            return "open"
        return "denied" if call.act == IS_DENIED else "done"


class _Table:
    """A table that there may be before a call: which owner has which bytes."""

    def __init__(self, number: int, table: dict[str, Any], asked: Optional[Span]) -> None:
        locks = table["locks"][:_MOST_TOLD]
        in_way = table["in_way"]
        if in_way is not None and in_way not in locks:
            locks.append(in_way)
        self._heading = _heading(number, table)
        self._rows: list[tuple[str, list[Span]]] = []
        if asked is not None:
            self._rows.append(("asked for", [asked]))
        for owner in dict.fromkeys(lock["owner"] for lock in locks):
            own = [_lock(lock, lock == in_way) for lock in locks if lock["owner"] == owner]
            self._rows.append((owner, own))
        spans = [span.span for _, of_owner in self._rows for span in of_owner]
        self.marks = sorted({end for lo, hi in spans for end in (lo, hi + 1)})
        self.height = len(self._rows) + 2

    def drawn(self, top: int, right: int) -> Iterator[str]:
        """Yields the heading, the bytes of owners, and the numbers of the bytes below them."""
        yield svg.line("row", 12, top, right, top)
        yield svg.label("owner", 12, top + 13, escaped(self._heading)) + "\n"
        for owner, spans in self._rows:
            top += TRACK
            yield fitting("holder", 12, top + 12, owner, 120) + "\n"
            for span in spans:
                yield self._span(top, span)
        for number, mark in enumerate(self.marks):
            text = "end" if mark > GREATEST else str(mark)
            yield svg.label("number", LEFT + BYTES * number, top + TRACK + 9, text) + "\n"

    def _span(self, top: int, span: Span) -> str:
        lo, hi = span.span
        left = LEFT + BYTES * bisect_left(self.marks, lo)
        width = LEFT + BYTES * bisect_left(self.marks, hi + 1) - left - 2
        box = svg.box(span.kind, left + 1, top + 2, width, 14)
        words = fitting("word", left + 5, top + 12, span.words, width - 8)
        return svg.titled(escaped(span.title), box + words)


def around(calls: list[ClientCall], line: int) -> list[ClientCall]:
    """Returns the call in a line and those around it in time, by their begins.

    These are the others that end last by its end, and those that begin or end next behind it.
    """
    at = next((at for at, call in enumerate(calls) if call.line == line), None)
    if at is None:
        return []
    this, others = calls[at], calls[:at] + calls[at + 1 :]
    end = _end_of(this)
    before = sorted((call for call in others if _end_of(call) <= end), key=_end_of)
    behind = [call for call in others if _end_of(call) > end]
    behind.sort(key=lambda call: call.begin if call.begin > end else _end_of(call))
    chosen = [this, *before[: -_BESIDE - 1 : -1], *behind[:_BESIDE]]
    return sorted(chosen, key=lambda call: call.begin)


def _end_of(call: ClientCall) -> float:
    return math.inf if call.end is None else call.end


def _last_ones(calls: Iterable[ClientCall]) -> list[ClientCall]:
    """Returns the calls: of several that an owner has in one line the last one."""
    last: list[ClientCall] = []
    for call in calls:
        if last and (last[-1].line, last[-1].owner) == (call.line, call.owner):
            last.pop()
        last.append(call)
    return last


def _asked(line: str, call: ClientCall) -> str:
    """Returns the operation of a call with its mode and bytes, as `set write 0-99`."""
    words = line.split(" ")
    parts = [words[4] if len(words) > 4 else "", call.mode or ""]
    if call.span is not None:
        parts.append(_bytes(call.span))
    return parts[0] + "".join(f" {part}" for part in parts[1:] if part)


def _answer(line: str, call: ClientCall) -> str:
    """Returns the reply of a call, as `blocked write 0-99 A`."""
    if call.end is None:
        return "no reply"
    if call.act == DROPS:
        return "done"
    reply = line.rpartition(" -> ")[2]
    words = reply.split(" ")
    if call.act == IS_DENIED and len(words) == 5:
        word, mode, start, length, owner = words
        return f"{word} {mode} {_bytes(span_of(int(start), int(length)))} {owner}"
    return reply


def _bytes(span: tuple[int, int]) -> str:
    return f"{span[0]}-{'end' if span[1] == GREATEST else span[1]}"


def _lock(lock: dict[str, Any], is_in_way: bool) -> Span:
    mode, start, length = lock["mode"], lock["start"], lock["len"]
    span = span_of(start, length)
    kind = "in-way" if is_in_way else mode
    return Span(span, kind, f"{mode} {start} {length} {lock['owner']}", f"{mode} {_bytes(span)}")


def _heading(number: int, table: dict[str, Any]) -> str:
    """Returns the heading of a table: what is open, and how much is not drawn."""
    text = f"table {number}" + ("" if table["in_way"] else ", nothing in the way")
    text += "".join(f", open: line {line}" for line in table["open"][:_MOST_TOLD])
    for what, of_table in (("locks", table["locks"]), ("open calls", table["open"])):
        if len(of_table) > _MOST_TOLD:
            text += f", more {what}: {len(of_table) - _MOST_TOLD}"
    return text


def escaped(text: str) -> str:
    """Returns a text as it may stand in an element: XML has no other control characters."""
    return _ESCAPED.sub(lambda found: _ESCAPES.get(found[0], "\ufffd"), text)


def fitting(kind: str, x: int, y: int, text: str, width: int) -> str:
    """Returns a label. A text that is wider than this is cut, with a sign of that at its end."""
    most = min(max(width, 0) // _LETTER, 1000)
    if len(text) > most:
        text = text[: max(most - 1, 0)] + "…"
    return svg.label(kind, x, y, escaped(text))
