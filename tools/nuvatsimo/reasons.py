"""The command `audit --why`: says why the entries of a journal are no run."""

from __future__ import annotations

import re
import sys
from typing import Optional

from nuvatsimo import faults, program, reason_plays, reason_words
from nuvatsimo.journal import Source, opened
from nuvatsimo.words import Argument, Command, Option

_TEXT = """\
With --why it is told behind 'audit no K' why entry K is not the next step:
  line L: entry K EVENT            the entry, and its first line in the journal
  refused: code C, REASON          its event is refused, with a code as of 'lockreplay run'
  first difference: line M, PART   else the part of the entry that differs first: 'event',
                                   'reply' or 'send P'
  made: LINE, found: LINE          that part as it is made, and as the journal has it
All lines of both entries follow. Where the text is no journal ('bad line L'), 'lockreplay
check JOURNAL' tells why.
"""

COMMAND = Command(
    "audit",
    "Check that a journal records a possible run",
    (Argument("journal", "JOURNAL", "The journal: a file of lines, or - for standard input"),),
    (Option("--why", "Tell why the journal is none of a run"),),
    _TEXT,
)

_NO = re.compile(r"audit no ([0-9]+)\n")


def main(words: list[str]) -> int:
    """Runs the command with these words behind it, and returns the exit status."""
    asked = COMMAND.parse(words)
    if not asked.why:
        return program.hand_on(["audit", *words])
    with opened(asked.journal) as source:
        answer = program.ask(["audit", source.path])
        if answer.error.startswith("cannot read "):
            raise source.refused(0)
        position = position_in(answer)
        if position is None:
            sys.stdout.write(answer.output)
            return faults.DONE
        told = reason_words.text_of(why(source, position))
    sys.stdout.write(f"audit no {position}\n{told}")
    return faults.NOT_SO


def position_in(answer: program.Answer) -> Optional[int]:
    """Returns the position of the first wrong entry that an audit names, or None.

    Another end of the program ends the command in the same way.
    """
    found = _NO.fullmatch(answer.output) if answer.status == faults.NOT_SO else None
    if found:
        return int(found[1])
    program.checked(answer)
    return None


def why(source: Source, position: int) -> reason_words.Why:
    """Returns why the entry at a position of a journal is the first that is not the next step."""
    entry, answer = reason_plays.played_to(source, position)
    if answer is None:
        return reason_words.Why(source.head, entry)
    made = reason_words.Lines.of(answer.lines) if answer.lines else None
    return reason_words.Why(source.head, entry, answer.code, made)
