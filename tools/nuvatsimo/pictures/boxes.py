"""What stands below the rows of a picture: who held which bytes when."""

from __future__ import annotations

from collections.abc import Iterator

from nuvatsimo.names import Names
from nuvatsimo.pictures import svg
from nuvatsimo.pictures.part import Part
from nuvatsimo.pictures.sheet import TRACK, Sheet
from nuvatsimo.pictures.stays import Share, Stay, Thing
from nuvatsimo.texts import GREATEST

# The room that the marks have which begin at one entry.
_ROOM = 58
_COLOURS = 8
# How wide a letter of a heading is.
_LETTER = 8


def drawn(part: Part, sheet: Sheet, names: Names) -> Iterator[str]:
    """Draws the headings of files, and the shares of nodes."""
    for number, track in enumerate(part.tracks):
        top = sheet.tracks_top + TRACK * number
        if isinstance(track, int):
            told = names.of_file(track)
            text = f"file {track}" + (f": {told}" if told else "")
            key = max(100, 20 + _LETTER * len(text))
            name = svg.label("lane", 12, top + 12, svg.shown(text))
            yield name + f"<use href='#key' x='{key}' y='{top}'/>\n"
        else:
            yield from _share(sheet, top, track)


def _share(sheet: Sheet, top: int, share: Share) -> Iterator[str]:
    """Draws a share: its node, how long what is held, and the owners of the locks.

    The first share of a stretch has the bytes in front, under a line.
    """
    if share.leads:
        yield svg.line("edge", 12, top, sheet.right, top)
        yield svg.label("bytes", 12, top + 12, _bytes(share))
    yield svg.label("holder", 186, top + 12, f"node {share.node}") + "\n"
    for stay in share.stays:
        yield _stay(sheet, top, share, stay)
    yield from _marks(sheet, top, share.stays)


def _bytes(share: Share) -> str:
    return f"{share.lo}-{'end' if share.hi == GREATEST else share.hi}"


def _stay(sheet: Sheet, top: int, share: Share, stay: Stay) -> str:
    """Draws how long something is held. The box of a lock lies within that of a token."""
    thing, first, last = stay
    inset = 2 if thing.kind == "token" else 3
    left = sheet.x(first)
    width = max(sheet.x(last + 1) - left, 0)
    box = svg.box(_class_of(thing), left, top + inset, width, TRACK - 2 * inset)
    title = f"{_name_of(thing)}, bytes {_bytes(share)}, entries {first} to {last}"
    return svg.titled(title, box)


def _name_of(thing: Thing) -> str:
    if thing.kind == "token":
        return f"token {thing.value} of {thing.holder}"
    return f"{thing.value} lock of {thing.holder}"


def _class_of(thing: Thing) -> str:
    if thing.kind == "token":
        return f"n{(thing.node - 1) % _COLOURS + 1} {thing.value}"
    return f"lock {thing.value}"


def _marks(sheet: Sheet, top: int, stays: list[Stay]) -> Iterator[str]:
    """Writes the owner of each lock into its box.

    Those of locks that begin at one entry stand side by side, as far as they have room.
    """
    lefts: dict[int, int] = {}
    for thing, first, _ in stays:
        if thing.kind != "lock":
            continue
        mark = thing.holder.partition("@")[0]
        left, width = lefts.get(first, 3), 5 * len(mark) + 5
        lefts[first] = min(left + width, _ROOM)
        if left + width <= _ROOM:
            x = sheet.x(first) + left
            plate = svg.box("plate", x, top + 4, width - 2, 8)
            yield plate + svg.label("mark", x + 2, top + 11, mark) + "\n"
