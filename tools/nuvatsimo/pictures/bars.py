"""The bars of calls in a picture."""

from __future__ import annotations

from collections.abc import Iterator
from typing import Optional

from nuvatsimo.pictures import svg
from nuvatsimo.pictures.calls import Call
from nuvatsimo.pictures.part import Part
from nuvatsimo.pictures.sheet import Sheet

_KINDS = {
    "done": "done",
    "fd": "done",
    "free": "done",
    "again": "denied",
    "blocked": "denied",
    "interrupted": "denied",
}
_LETTER = 6


def drawn(part: Part, sheet: Sheet) -> Iterator[str]:
    """Draws the calls: of each a box, a label, and a title with what became of it."""
    for call, room in _with_rooms(part, sheet):
        behind = part.blockers.get(call.name)
        title = f"{call.name} {call.operation}: {call.outcome}"
        title += f", behind {behind}" if behind else ""
        cycle = part.cycles.get(call.name)
        title += f", in a {cycle}" if cycle else ""
        x, top = sheet.x(call.position), sheet.top(call.process)
        over = sheet.window.last + 1 if call.over_at is None else call.over_at
        width = max(sheet.x(over) - x, 0) + 8
        why = "in a cycle of waits" if cycle else svg.shown(_why(call, behind))
        label = svg.label("op", x + 11, top + 20, _label(call, why, room))
        kind = _kind_of(call) + (" cycle" if cycle else "")
        yield svg.titled(svg.shown(title), svg.box(kind, x, top + 8, width, 18) + label)


def _with_rooms(part: Part, sheet: Sheet) -> list[tuple[Call, int]]:
    """Pairs each call with the room of its label: up to the next call of its process."""
    following: dict[str, int] = {}
    paired = []
    for call in reversed(part.calls):
        behind = following.get(call.process, sheet.window.last + 1)
        room = max(sheet.x(behind) - sheet.x(call.position) - 14, 0)
        paired.append((call, room))
        following[call.process] = call.position
    return paired[::-1]


def _kind_of(call: Call) -> str:
    """Returns the class of a call, by what became of it."""
    if call.reply is None:
        return "open"
    return _KINDS.get(call.reply.partition(" ")[0], "refused")


def _why(call: Call, behind: Optional[str]) -> str:
    """Returns the lock in the way of a call, as its label has it."""
    if call.reply is not None and call.reply.startswith(("again ", "blocked ")):
        return call.reply
    return f"behind {behind}" if behind else ""


def _label(call: Call, why: str, room: int) -> str:
    """Returns the first of the labels that has room: shorter ones come later."""
    word = call.operation.partition(" ")[0]
    is_why_shown = why and _LETTER * (len(word) + len(why)) <= room
    operation = svg.shown(call.operation)
    letters = len(operation) + (len(why) if is_why_shown else 0)
    text = operation if _LETTER * letters <= room else word
    return f"{text} {why}" if is_why_shown else text
