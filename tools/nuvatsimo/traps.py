"""Warns of closes that take away a lock which another descriptor had taken, as POSIX has it.

A script is played by the program, line by line. It also says what is locked before such a close
and behind it.
"""

from __future__ import annotations

import os
import re
import tempfile
from typing import NamedTuple, Optional

from nuvatsimo.journal import Source
from nuvatsimo.names import Names
from nuvatsimo.plays import Play
from nuvatsimo.taken import Gone, TakenLocks

# How many warnings are told, since the program is asked twice for each.
MOST_TOLD = 10

_CLOSE = re.compile("^call [0-9]+ [0-9]+ close ", re.MULTILINE)
_LOCK = re.compile("^call [0-9]+ [0-9]+ (?:set|wait) [0-9]+ proc ", re.MULTILINE)


class Trap(NamedTuple):
    """A close by which a lock goes, and the line of the script where it is."""

    line: int
    gone: Gone

    def text(self, names: Names) -> str:
        """Returns the warning, behind the number of the line."""
        lock = self.gone.lock
        which = f"{names.file(lock.file)}, {lock.bytes()}"
        return (
            f"this close drops the lock of {lock.call} ({which}), which another descriptor had"
            " taken: POSIX"
        )


def warnings_of(text: str, names: Names, origins: Optional[list[int]] = None) -> str:
    """Returns the warnings of a good script, a line each.

    In place of its lines those are told that `origins` has for them, in order.
    """
    if not _CLOSE.search(text) or not _LOCK.search(text):
        return ""
    with tempfile.TemporaryDirectory(prefix="nuvatsimo-") as room:
        found = _found_in(text, os.path.join(room, "journal"))
    told = []
    for trap in found[:MOST_TOLD]:
        line = trap.line if origins is None else origins[trap.line - 1]
        told.append(f"line {line}: {trap.text(names)}\n")
    if len(found) > MOST_TOLD:
        told.append(f"more closes that may drop such a lock: {len(found) - MOST_TOLD}\n")
    return "".join(told)


def _found_in(text: str, journal: str) -> list[Trap]:
    """Plays a script. Returns the traps, of which the first are looked at in the journal too."""
    taken, found = TakenLocks(), []
    with open(journal, "wb") as kept:
        for line, entry in Play(text, kept).entries():
            gone = taken.take(entry)
            found += [Trap(line, it) for it in gone if it.is_trap()]
    source = Source(journal, journal)
    return [trap for at, trap in enumerate(found) if at >= MOST_TOLD or trap.gone.is_so(source)]
