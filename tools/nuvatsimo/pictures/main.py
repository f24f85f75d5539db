"""The command `picture`: draws a journal as SVG, or as a sequence diagram in Mermaid's text."""

from __future__ import annotations

import sys
from collections.abc import Iterator
from typing import Optional

from nuvatsimo import faults
from nuvatsimo.journal import Source, opened
from nuvatsimo.names import OPTION, Names, names_of
from nuvatsimo.pictures.drawing import picture
from nuvatsimo.pictures.mermaid import diagram
from nuvatsimo.pictures.overview import Overview, count_of, overview
from nuvatsimo.pictures.part import Part, Window, around
from nuvatsimo.words import NUMBER_MAX, Argument, Command, Option, Parsed, number

MOST_DRAWN = 400
# How many entries are drawn on each side of those that belong to a call.
MARGIN = 10

_HELP = """\
The journal is audited first. Where its entries are no run, the text is 'audit no K', as
of 'lockreplay audit' (exit status 1).

Else the text is a picture in this format (exit status 0, if it lacks nothing):
  svg        SVG, which browsers show
  mermaid    a sequence diagram in Mermaid, which many wikis show
In SVG, time is entries, from left to right. It has a row for each node, server and
process that takes part, a bar for each call from its entry to its reply, an arrow for
each message that comes, a short line for each that is not delivered, a diamond where the
history places a call, and a line across where a node or a server fails or begins again.
The row of a dead one is broken, and a bar in a cycle of waits is framed in red. Below the
rows it shows who held which bytes. More than 40 entries are folded, 20 in a fold.

With --from K and --to L the entries from K to L are drawn, with --around CALL those
from ten before the first that has to do with the call to ten behind the last; with
both, those in both. Of these the first 400 are drawn. With none of the three, SVG of
more than 400 has columns of as many entries each, with counts. Where there are more, or
none though the journal has some, standard error tells so (exit status 1). Where the
journal has no call of that name, standard error says so (exit status 1).
"""

COMMAND = Command(
    "picture",
    "Draw a journal, as SVG or Mermaid",
    (Argument("journal", "JOURNAL", "The journal: a file of lines, or - for standard input"),),
    (
        Option("--around", "Draw the entries around the call, by its name, as 2.1.3", "CALL"),
        Option("--from", "Draw no entry before entry K, counted from 1", "K", number(1), 1),
        Option(
            "--to", "Draw no entry behind entry L, counted from 1", "L", number(1), NUMBER_MAX
        ),
        Option("--format", "Draw it as svg or mermaid", "FORMAT", str, "svg"),
        OPTION,
    ),
    _HELP,
)


def main(words: list[str]) -> int:
    """Draws the journal that the words name, and returns the exit status."""
    asked = COMMAND.parse(words)
    if asked.format == "trace":
        text = "the trace format is gone: --format is svg or mermaid"
        raise faults.line(faults.WORDS_REFUSED, text)
    if asked.format not in ("svg", "mermaid"):
        value = "invalid value for '--format <FORMAT>'"
        raise COMMAND.refuse(f"{value}: it is svg or mermaid")
    with opened(asked.journal) as source:
        pieces, lack = _drawn(source, asked, names_of(asked.journal, asked.names))
    for piece in pieces:
        sys.stdout.write(piece)
    sys.stdout.flush()
    if lack is None:
        return faults.DONE
    sys.stderr.write(f"{lack}\n")
    return faults.NOT_SO


def _drawn(
    source: Source, asked: Parsed, names: Names
) -> tuple[Iterator[str], Optional[str]]:
    """Returns the pieces of a picture, and the line that tells what it lacks, or None."""
    window = Window(getattr(asked, "from"), asked.to)
    is_whole = asked.around is None and window == (1, NUMBER_MAX) and asked.format == "svg"
    count = count_of(source.path) if is_whole else None
    if count is not None and count > MOST_DRAWN:
        return _drawn_over(source, count)
    history = source.history()
    if asked.around is not None:
        window = _around(source, asked.around, window)
    shown = Window(window.first, min(window.last, window.first + MOST_DRAWN - 1))
    part = Part(shown)
    part.read(source, has_holders=asked.format == "svg")
    drawn = picture if asked.format == "svg" else diagram
    return drawn(part, history, names), _lack_of(window, shown, part.count)


def _drawn_over(source: Source, count: int) -> tuple[Iterator[str], str]:
    """Returns the pieces of an overview of all entries, and the line that tells its columns."""
    source.audit()
    shown = Overview(count)
    shown.read(source)
    rest = "--around CALL draws those about a call in full"
    return overview(shown), f"{count} entries are drawn {shown.size} a column: {rest}"


def _around(source: Source, call: str, window: Window) -> Window:
    """Narrows a window to the entries around a call."""
    ends = around(source.entries(is_audited=True), call)
    if ends is None:
        raise faults.no_call(call)
    first, last = max(ends[0] - MARGIN, 0), ends[1] + MARGIN
    return Window(max(first, window.first), min(last, window.last))


def _lack_of(asked: Window, shown: Window, count: int) -> Optional[str]:
    """Returns the line that tells what a picture lacks of what was asked for, or None."""
    last = min(asked.last, count)
    if shown.last < last:
        what = f"entries {shown.last + 1} to {last} are left out"
        return f"{what}: a picture shows {MOST_DRAWN} at most"
    if count and last < asked.first:
        return f"no entry lies from {asked.first} to {asked.last}: the last one is {count}"
    return None
