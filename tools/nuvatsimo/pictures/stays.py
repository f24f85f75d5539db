"""How long nodes hold which bytes, as boxes below the rows of a picture."""

from __future__ import annotations

from bisect import bisect_left
from typing import NamedTuple, Optional, Union

from nuvatsimo.pictures.runs import Run
from nuvatsimo.texts import node_of, owner_order


class Thing(NamedTuple):
    """A token of a host at a level, or a lock of an owner in a mode."""

    kind: str
    holder: str
    value: str

    @property
    def node(self) -> int:
        """The node that holds it."""
        return node_of(self.holder.rpartition("@")[2])


class Stay(NamedTuple):
    """A thing that is held behind each entry from the first place to the last."""

    thing: Thing
    first: int
    last: int


class Share(NamedTuple):
    """What a node holds of a stretch of bytes. `leads` where it is the stretch's first node."""

    lo: int
    hi: int
    node: int
    leads: bool
    stays: list[Stay]


# The number of a file as a heading, or a share of the file of the heading above.
Track = Union[int, Share]


class _Life(NamedTuple):
    """A run, and behind which entries it is held without a change."""

    is_lock: bool
    first: int
    order: tuple[int, ...]
    thing: Thing
    lo: int
    hi: int
    last: int


class Lives:
    """Collects how long each run is held. `position` is the place of the entry that is read."""

    def __init__(self, position: int) -> None:
        self.position = position
        self._since: dict[tuple[int, Thing, int, int], int] = {}
        self._ended: dict[int, list[_Life]] = {}

    def note(self, kind: str, file: int, holder: str, gone: list[Run], new: list[Run]) -> None:
        """Takes note of runs that go and that come at the entry."""
        for lo, hi, value in gone:
            key = file, Thing(kind, holder, value), lo, hi
            self._end(key, self._since.pop(key), self.position - 1)
        for lo, hi, value in new:
            self._since[file, Thing(kind, holder, value), lo, hi] = self.position

    def tracks(self, last: int) -> list[Track]:
        """Returns what stands below the rows. The last entry that is drawn has this place."""
        for key, since in self._since.items():
            self._end(key, since, last)
        self._since = {}
        tracks: list[Track] = []
        for file in sorted(self._ended):
            tracks += [file, *_shares(sorted(self._ended[file]))]
        return tracks

    def _end(self, key: tuple[int, Thing, int, int], since: int, last: int) -> None:
        file, thing, lo, hi = key
        if last < since:
            return
        is_lock = thing.kind == "lock"
        order = (lo, *owner_order(thing.holder)) if is_lock else (thing.node,)
        life = _Life(is_lock, since, order, thing, lo, hi, last)
        self._ended.setdefault(file, []).append(life)


class _Stretch:
    """The bytes between two ends, and what is held of all of them how long."""

    def __init__(self, lo: int, hi: int) -> None:
        self.lo = lo
        self.hi = hi
        self.stays: list[Stay] = []
        self._latest: dict[Thing, int] = {}

    def add(self, life: _Life) -> None:
        """Adds what is held, as a part of the stay that it goes on with, or as another."""
        at: Optional[int] = self._latest.get(life.thing)
        if at is not None and self.stays[at].last + 1 == life.first:
            self.stays[at] = self.stays[at]._replace(last=life.last)
            return
        self._latest[life.thing] = len(self.stays)
        self.stays.append(Stay(life.thing, life.first, life.last))

    def shares(self) -> list[Share]:
        """Returns the shares of the nodes."""
        by_node: dict[int, list[Stay]] = {}
        for stay in self.stays:
            by_node.setdefault(stay.thing.node, []).append(stay)
        return [
            Share(self.lo, self.hi, node, number == 0, by_node[node])
            for number, node in enumerate(sorted(by_node))
        ]


def _shares(lives: list[_Life]) -> list[Share]:
    """Returns the shares of a file. The lives come in the order in which their stays stand."""
    ends = sorted({end for life in lives for end in (life.lo, life.hi + 1)})
    stretches = [_Stretch(lo, behind - 1) for lo, behind in zip(ends, ends[1:])]
    for life in lives:
        for at in range(bisect_left(ends, life.lo), bisect_left(ends, life.hi + 1)):
            stretches[at].add(life)
    return [share for stretch in stretches for share in stretch.shares()]
