"""Does `state --node`, `--file` and `--json`, over what the program's `state` prints."""

from __future__ import annotations

import sys
from typing import Optional

from nuvatsimo import faults, journal, states
from nuvatsimo.texts import json_line
from nuvatsimo.words import Argument, Command, Option, number

COMMAND = Command(
    "state",
    "Show what the cluster of a journal holds",
    (Argument("journal", "JOURNAL", "The journal: a file of lines, or - for standard input"),),
    (
        Option(
            "--at", "Show the state behind entry K, or with 0 that before the first", "K", number()
        ),
        Option("--node", "Show node N alone", "N", number(1, 64)),
        Option("--file", "Show file F alone", "F", number(1, 256)),
        Option("--json", "Print the text as JSON"),
    ),
    """\
With --node N the text is of node N alone, and with --file F of file F alone; with both, of
both (exit status 0). Where the journal's cluster has no node N or no file F, the text is
'no node N, the last is L' or 'no file F, the last is L' (exit status 1).
""",
)


def _look_for(what: str, asked: Optional[int], last: int) -> None:
    """Ends the command where the cluster has nothing of that number."""
    if asked is not None and asked > last:
        raise faults.told(faults.NOT_SO, f"no {what} {asked}, the last is {last}")


def main(words: list[str]) -> int:
    """Runs `state`."""
    asked = COMMAND.parse(words)
    with journal.opened(asked.journal) as source:
        lines = source.state(asked.at)
        head = source.head
    _look_for("node", asked.node, head.nodes)
    _look_for("file", asked.file, head.files)
    lines = [line for line in lines if states.is_about(line, asked.node, asked.file)]
    if asked.json:
        sys.stdout.write(json_line(states.document_of(lines)))
    else:
        sys.stdout.writelines(f"{line}\n" for line in lines)
    return faults.DONE
