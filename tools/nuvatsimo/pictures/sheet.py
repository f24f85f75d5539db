"""Where things stand in a picture: its rows from top to bottom, its entries from left to right."""

from __future__ import annotations

from nuvatsimo.pictures.actors import busy_in, lanes
from nuvatsimo.pictures.part import Part, Window

LEFT = 130
COLUMN = 60
TOP = 56
ROW = 34
TRACK = 16
# Behind each entry at a multiple of this place the names of the rows stand again.
NAMED = 20
NAMES = 120
# A picture of more entries is folded.
FOLDED = 40


class Sheet:
    """The places of a picture of a part of a journal. Its unit is a pixel at scale 1.

    `rows` are names as `node 1`, `server 1` and `process 1 of 1.1`.
    """

    def __init__(self, part: Part) -> None:
        self.window: Window = part.window
        self.rows = _rows_of(part)
        self.right = self.x(self.window.last + 1)
        self.tracks_top = TOP + ROW * len(self.rows)
        self.foot = self.tracks_top + TRACK * len(part.tracks)
        self._numbers = {name: number for number, name in enumerate(self.rows)}

    def x(self, position: int) -> int:
        """Returns where an entry stands: on an edge of the rows outside of the window."""
        first, last = self.window
        shown = min(position, last + 1)
        breaks = max((max(shown - 1, 0)) // NAMED - max(first - 1, 0) // NAMED, 0)
        return LEFT + COLUMN * max(shown + 1 - first, 0) + NAMES * breaks

    def folds(self) -> list[tuple[int, int]]:
        """Returns the folds: where each begins, and how wide it is.

        A picture of many entries has so many in each that the names of the rows stand in front.
        """
        first, last = self.window
        begins = [0]
        if last - first + 1 > FOLDED:
            begins += [
                self.x(place + 1) - NAMES
                for place in range(first, last)
                if place % NAMED == 0 and place - first >= NAMED // 2 and last - place >= NAMED // 2
            ]
        return [
            (left, behind - left) for left, behind in zip(begins, [*begins[1:], self.right + 16])
        ]

    def top(self, row: str) -> int:
        """Returns the top of a row."""
        return TOP + ROW * self._numbers.get(row, 0)

    def middle(self, row: str) -> int:
        """Returns the middle of a row."""
        return self.top(row) + 17


def _rows_of(part: Part) -> list[str]:
    """Returns the rows: each node has its processes on the side away from the servers."""
    by_node: dict[str, list[str]] = {}
    for call in part.calls:
        of_node = by_node.setdefault(call.node, [])
        if call.process not in of_node:
            of_node.append(call.process)
    busy = set(by_node).union(*(busy_in(entry) for entry in part.entries))
    above, servers, below = lanes(busy)
    rows = []
    for node in above:
        rows += [*by_node.get(node, []), node]
    rows += servers
    for node in below:
        rows += [node, *by_node.get(node, [])]
    return rows
