"""Draws a part of a journal as SVG."""

from __future__ import annotations

from collections.abc import Iterator

from nuvatsimo.journal import Entry
from nuvatsimo.names import Names
from nuvatsimo.pictures import bars, boxes, svg
from nuvatsimo.pictures.actors import RULES, sender_of, taker_of
from nuvatsimo.pictures.part import COMES, IS_LATE, Part
from nuvatsimo.pictures.sheet import COLUMN, LEFT, NAMED, ROW, TOP, Sheet
from nuvatsimo.pictures.style import DEFINITIONS, LEGEND, STYLE
from nuvatsimo.texts import actor_of, node_of

# So many letters of the name of a process have room.
_NAME = 19


def picture(part: Part, history: dict[str, int], names: Names) -> Iterator[str]:
    """Yields the picture in pieces. `history` has the entry at which it has each call.

    Where it has many entries it is folded: it stands once among what is defined, and each fold
    shows a part of that, below the one before.
    """
    sheet = Sheet(part)
    folds = sheet.folds()
    width, height = max(fold[1] for fold in folds), sheet.foot + 16
    yield svg.size(width, height * len(folds))
    yield STYLE + DEFINITIONS
    if len(folds) == 1:
        yield from _drawn(part, sheet, history, names)
    else:
        yield "<defs><g id='all'>\n"
        yield from _drawn(part, sheet, history, names)
        yield "</g></defs>\n"
        for number, (left, fold) in enumerate(folds):
            place = f"x='0' y='{height * number}' width='{fold}' height='{height}'"
            yield f"<svg {place} viewBox='{left} 0 {fold} {height}'><use href='#all'/></svg>\n"
    yield "</svg>\n"


def _drawn(part: Part, sheet: Sheet, history: dict[str, int], names: Names) -> Iterator[str]:
    """Draws all of it in one stretch."""
    yield LEGEND
    yield from _rows(part, sheet, names)
    for entry in part.entries:
        yield _frame(sheet, entry)
    yield from bars.drawn(part, sheet)
    for entry in part.entries:
        yield _entry(part, sheet, entry)
        for message in entry.sends:
            yield _sent(part, sheet, entry, message)
    yield from boxes.drawn(part, sheet, names)
    yield from _places(part, sheet, history)


def _rows(part: Part, sheet: Sheet, names: Names) -> Iterator[str]:
    """Draws the rows: the name of each, and a line, which is broken while the actor is dead."""
    for row in sheet.rows:
        kind = row.partition(" ")[0]
        middle = sheet.middle(row)
        drawn = _name_of(row, sheet, names)
        at = LEFT
        for first, behind in part.deaths.get(row, []):
            left, right = max(sheet.x(first), LEFT), sheet.x(behind)
            drawn += svg.line(kind, at, middle, left, middle) if at < left else ""
            drawn += svg.line("dead", left, middle, right, middle)
            at = right
        drawn += svg.line(kind, at, middle, sheet.right, middle) if at < sheet.right else ""
        yield drawn + "\n"


def _name_of(row: str, sheet: Sheet, names: Names) -> str:
    """Draws the name of a row. A process that has another name shows that."""
    kind, _, rest = row.partition(" ")
    if kind != "process":
        return svg.label("lane", 12, sheet.top(row) + 21, row)
    number, _, host = rest.split(" ")
    name = names.of_process(node_of(host), int(number))
    if name is None:
        return svg.label("owner", 12, sheet.top(row) + 21, row)
    label = svg.label("owner", 12, sheet.top(row) + 21, svg.shown(name[:_NAME]))
    return svg.titled(svg.shown(f"{row}: {name}"), label)[:-1]


def _frame(sheet: Sheet, entry: Entry) -> str:
    """Draws the line of an entry, its place above, and of a failure or a start what it is.

    Behind each twentieth entry the names of the rows stand once more.
    """
    position = entry.position
    x = sheet.x(position)
    is_rule = entry.kind in RULES
    drawn = svg.line("rule" if is_rule else "column", x, TOP, x, sheet.foot)
    if position % NAMED == 0:
        left = x + COLUMN + 3
        for number, row in enumerate(sheet.rows):
            drawn += svg.label("again", left, TOP + ROW * number + 6, row)
    if is_rule:
        drawn += svg.label("rule-name", x + 3, 30 + 12 * (position % 2), entry.event)
    return drawn + svg.label("number", x, 16, str(position)) + "\n"


def _entry(part: Part, sheet: Sheet, entry: Entry) -> str:
    """Draws an entry: a dot, the arrow of a message that comes, and a word for the event."""
    x, taker = sheet.x(entry.position), taker_of(entry.event)
    middle = sheet.middle(taker)
    drawn = ""
    origin = part.origins.get(entry.position)
    if entry.comes is not None and origin is not None:
        start = sheet.x(origin), sheet.middle(sender_of(entry.comes))
        drawn += svg.line("arrow", *start, x, middle)
    if entry.kind not in RULES and entry.kind != "call":
        word = (entry.comes or entry.event).partition(" ")[0]
        drawn += svg.label("word", x + 5, sheet.top(taker) + 28, word)
    drawn += f"<circle class='dot' cx='{x}' cy='{middle}' r='3'/>"
    return svg.titled(svg.shown(f"entry {entry.position}: {entry.event}"), drawn)


def _sent(part: Part, sheet: Sheet, entry: Entry, message: str) -> str:
    """Draws a message that an entry sends, where it does not come in the window."""
    fate = part.fate_of(entry.position, message)
    if fate == COMES:
        return ""
    x, start = sheet.x(entry.position), sheet.middle(taker_of(entry.event))
    end = sheet.middle(actor_of(message))
    if fate == IS_LATE:
        line = svg.line("late", x, start, sheet.right, end)
        return svg.titled(svg.shown(f"comes later: {message}"), line)
    y = (3 * start + end) // 4
    word = svg.label("gone", x + 17, y, message.partition(" ")[0])
    stub = svg.line("undelivered", x, start, x + 14, y)
    return svg.titled(svg.shown(f"not delivered: {message}"), stub + word)


def _places(part: Part, sheet: Sheet, history: dict[str, int]) -> Iterator[str]:
    """Draws where the history has calls: a diamond, and a line to who takes that entry."""
    calls = {call.name: call for call in part.calls}
    takers = {entry.position: taker_of(entry.event) for entry in part.entries}
    for name, position in history.items():
        if not sheet.window.has(position):
            continue
        call, taker = calls[name], takers[position]
        x, y = sheet.x(position), sheet.top(call.process) + 27
        drawn = ""
        if taker != call.node:
            drawn = svg.line("link", x, y, x, sheet.middle(taker))
        yield drawn + f"<use class='place' href='#place' x='{x}' y='{y}'/>\n"
