"""Makes the schedule of a seed: a script of its own, with what becomes of each message."""

from __future__ import annotations

from collections.abc import Iterator
from typing import NamedTuple

from nuvatsimo.explore.choosing import Chooser
from nuvatsimo.explore.playing import Made, Play, playing
from nuvatsimo.scripts import Script

_MOST_LINES = 100_000


class Schedule(NamedTuple):
    """The lines of a schedule behind the cluster line, with what each came to: the entries that
    it made and its refusal, if it has one."""

    head: str
    lines: list[str]
    entries: list[Made]
    refusals: dict[int, str]
    is_whole: bool


def limit_of(count: int) -> int:
    """Returns how many lines a schedule of a script of so many lines may have."""
    return min(_MOST_LINES, 64 + 40 * count)


def schedule_of(script: Script, seed: int, has_failures: bool) -> Schedule:
    """Makes the schedule of a seed. It is whole where it has fewer lines than it may have."""
    chooser = Chooser(script.lines, seed, has_failures)
    limit = limit_of(len(script.lines))
    with playing(script.shape.text) as play:
        made = Schedule(play.head, [], [], {}, True)
        for line in _lines_of(chooser, play, made):
            made.lines.append(line)
            if len(made.lines) == limit:
                return made._replace(is_whole=False)
    return made


def _lines_of(chooser: Chooser, play: Play, made: Schedule) -> Iterator[str]:
    """Yields the lines that are chosen, and plays each."""
    while True:
        line = chooser.next()
        if line is None:
            return
        answer = play.take(line)
        if answer.refused is not None:
            made.refusals[len(made.lines)] = answer.refused
        made.entries.extend(answer.entries)
        chooser.see(answer.entries)
        yield line
