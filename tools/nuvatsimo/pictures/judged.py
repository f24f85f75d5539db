"""The command `judge --picture`: draws the first call of a history that fits nowhere."""

from __future__ import annotations

import json
import sys
from typing import Any, Optional

from nuvatsimo import faults, program
from nuvatsimo.pictures.histories import History
from nuvatsimo.pictures.misfits import Misfit
from nuvatsimo.words import Argument, Command, Option, Parsed, number

_STEPS = 10000000
_RULES = ("wait-drops", "close-own-descriptor", "no-query", "stale-read-denial", "lost-at")

_HELP = """\
HISTORY tells what clients of a lock manager saw, one line for a call, with when it was
made, when its reply came, and its owner:
  history 1 clock ns
  call 1200 1900 p1 set F write 0 100 -> done
  call 2000 2500 p2 set F write 50 10 -> again write 0 100 p1
  call 2600 - p2 wait F write 50 10
  call 2700 2800 p1 exit
F names a file. docs/FORMATS.md, 'Histories of clients', has all lines. The files are
judged one by one: in which order, each call between its times, would one table of locks
give each reply? The text is one of these:
  history yes        such an order was found for each file (exit status 0)
  history no         for one of them there is none (exit status 1)
  history unknown    none was found among N tables of a file (exit status 5)
Here yes means that no contradiction was observed, and no more. Behind 'no' stands for
each such file the first call that fits nowhere, by its line, and for up to three tables
that there may have been before it what they hold, what of it is in its way and which
calls are open. Behind 'unknown' stands the line of the call at whose end the steps ran
out.

With --go-on the call that fits nowhere is left out, and the search goes on behind it; the
text tells each. With --order the order is printed, behind 'yes' a line for each file:
  order F LINE LINE ..
With --explains FILE such lines are read from FILE and nothing is searched. The text is
'explains yes' where the orders explain the calls (exit status 0), else 'explains no F'
with the first file whose order doesn't (exit status 1). With --stats a line of counts is
printed too: the calls that are judged, exits, calls that say nothing, files, owners and
machines. With --json all is printed as JSON. With --picture, of one HISTORY, the first
call that fits nowhere is drawn as SVG, where one does, and nothing else is printed.

With --allow RULE, once for each, the history is judged by one table, but for these:
  wait-drops            a wait first gives back its owner's own locks on its bytes
  close-own-descriptor  a close of a descriptor that was not used drops no lock
  no-query              what queries tell says nothing
  stale-read-denial     a lock that is gone may be in the way of a read lock
  lost-at               each owner loses its locks in the times that 'lost' lines tell

Of several histories each line of the text begins with 'HISTORY: '. The exit status is 1
where one is contradicted, else 5 where one is unknown.

A test shows what clients look at: a lost lock is found only where somebody looks. A
tester wants few hot bytes, a yield behind each call, and an observer that queries all
the time. Log an exit of each owner, also of one that is killed or fenced.
"""

COMMAND = Command(
    "judge",
    "Judge what clients of a lock manager saw",
    (
        Argument(
            "histories", "HISTORY", "The history: a file of lines, or - for standard input", True
        ),
    ),
    (
        Option(
            "--steps",
            "How many tables of a file are looked at, up to 4294967295",
            "N",
            number(1),
            _STEPS,
        ),
        Option("--explains", "Say whether the order in FILE explains HISTORY", "FILE"),
        Option("--allow", "Allow a difference from one table, as wait-drops", "RULE", many=True),
        Option("--order", "Print an order of the calls that explains them"),
        Option("--go-on", "Leave out what fits nowhere, and go on behind it"),
        Option("--stats", "Print counts of calls and of tables"),
        Option("--json", "Print the text as JSON"),
        Option("--picture", "Draw the first call that fits nowhere, as SVG"),
    ),
    _HELP,
)


def main(words: list[str]) -> int:
    """Judges as the words say, and draws what fits nowhere. Returns the exit status."""
    asked = COMMAND.parse(words)
    if not asked.picture:
        return program.hand_on(["judge", *words])
    _check(asked)
    path = asked.histories[0]
    given = sys.stdin.buffer.read() if path == "-" and sys.stdin is not None else None
    others = [word for word in words if word not in ("--picture", "--json")]
    answer = program.ask(["judge", "--json", *others], given)
    found = _first_misfit(answer.output) if answer.status == faults.NOT_SO else None
    if found is None:
        if not asked.json:
            answer = program.ask(["judge", *others], given)
        sys.stdout.write(answer.output)
        sys.stderr.write(answer.error)
        return answer.status
    history = History(_text_of(path, given), asked.allow)
    for piece in Misfit(history, *found).drawn():
        sys.stdout.write(piece)
    return answer.status


def _check(asked: Parsed) -> None:
    """Refuses words that don't go with `--picture`."""
    if any(rule not in _RULES for rule in asked.allow):
        rules = f"{', '.join(_RULES[:-1])} or {_RULES[-1]}"
        raise COMMAND.refuse(f"invalid value for '--allow <RULE>': it is {rules}")
    if asked.explains is not None:
        others = "no '--steps', '--order', '--go-on' or '--picture'"
        raise COMMAND.refuse(f"the argument '--explains <FILE>' takes one HISTORY, and {others}")
    if len(asked.histories) > 1:
        raise COMMAND.refuse("the argument '--picture' takes one HISTORY")


def _first_misfit(output: str) -> Optional[tuple[str, dict[str, Any]]]:
    """Returns the first file that has a call that fits nowhere, and the first such call."""
    for file in json.loads(output, strict=False)["files"]:
        if file.get("misfits"):
            return file["file"], file["misfits"][0]
    return None


def _text_of(path: str, given: Optional[bytes]) -> str:
    """Returns the text of a history, which the program could read."""
    if given is None:
        try:
            with open(path, "rb") as file:
                given = file.read()
        except OSError as error:
            raise faults.cannot_read(path, faults.reason_of(error)) from None
    return given.decode("utf-8")
