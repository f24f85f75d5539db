"""What is odd in a good script: comments that count for nothing, and lines that a run refuses."""

from __future__ import annotations

import heapq

from nuvatsimo import faults, program
from nuvatsimo.check_reports import MOST_TOLD
from nuvatsimo.scripts import expectations

_BUSY = "a run refuses it (13): the process has an open call; is a settle missing before?"
_STRANGER = "a run refuses it (14): there is no such node, process, file or message"
_ODD = {13: _BUSY, 14: _STRANGER}
_NO_CALL = "no call stands in the line before, so nothing is expected"


def warnings_of(path: str, text: str) -> str:
    """Warns of what is odd in a script, in the order of the lines."""
    comments = ((number, _NO_CALL) for number, _, counts in expectations(text) if not counts)
    refused = ((number, _ODD[code]) for number, code in _odd_lines(text).items())
    told: list[str] = []
    count = 0
    for number, words in heapq.merge(comments, refused):
        count += 1
        if count <= MOST_TOLD:
            told.append(f"{path}:{number}: warning: {words}\n")
    if count > MOST_TOLD:
        told.append(f"{path}: more warnings: {count - MOST_TOLD}\n")
    return "".join(told)


def _odd_lines(text: str) -> dict[int, int]:
    """Asks a run which lines it refuses with such a code. One that fills the journal says none."""
    answer = program.ask(["run", "-"], text.encode())
    if answer.error == faults.journal_full().error:
        return {}
    listing = program.checked(answer)
    odd: dict[int, int] = {}
    for line in listing.partition("replies\n")[0].splitlines()[1:]:
        _, number, _, code = line.split(" ")
        if int(code) in _ODD:
            odd.setdefault(int(number), int(code))
    return odd
