"""Reports on texts that are to be scripts or journals: a line for each bad line."""

from __future__ import annotations

from typing import Iterator, Optional

from nuvatsimo.check_flaws import NO_CLUSTER, NO_LINE_FEED, Flaw, flaw_of
from nuvatsimo.script_forms import CLUSTER_LINE, COMMAND, values_of
from nuvatsimo.scripts import GREATEST_LINE, is_skipped, numbered_lines

# How many bad lines, or warnings, are told at most.
MOST_TOLD = 100


def script_report(path: str, text: str) -> str:
    """Says what is wrong in a text that is to be a script. The report on a script is empty.

    A line is bad where a script could not have it, if the lines before it were good.
    """
    told: list[str] = []
    count = 0
    for number, line, place in _bad_lines(text):
        count += 1
        if count <= MOST_TOLD:
            flaw = _flaw_at(line, place)
            told.append(f"{path}:{number}:{flaw.column}: {flaw.reason}\n")
    if count > MOST_TOLD:
        told.append(f"{path}: more bad lines: {count - MOST_TOLD}\n")
    return "".join(told)


def _flaw_at(line: str, place: Optional[str]) -> Flaw:
    if place == "end":
        return Flaw(len(line) + 1, NO_LINE_FEED)
    if place == "missing":
        return Flaw(1, NO_CLUSTER)
    return flaw_of(CLUSTER_LINE if place == "first" else COMMAND, line)


def _bad_lines(text: str) -> Iterator[tuple[int, str, str]]:
    """Goes through the bad lines: the number, the line, and its place.

    The place is `first` where the cluster line is expected, `other` behind it, `end` where the
    text ends in the line, and `missing` where it ends before the cluster line.
    """
    number = 0
    is_first = True
    for number, line, is_whole in numbered_lines(text):
        if not is_whole:
            yield number, line, "end"
            return
        if is_skipped(line):
            continue
        is_good = values_of(CLUSTER_LINE if is_first else COMMAND, line) is not None
        if not is_good or (not is_first and number > GREATEST_LINE):
            yield number, line, "first" if is_first else "other"
        is_first = False
    if is_first:
        yield number + 1, "", "missing"


def journal_report(path: str, text: str, number: int) -> str:
    """Says why line `number` is the first bad one of a text that is to be a journal."""
    if number <= text.count("\n"):
        reason = "no journal has this line here"
    elif not text or text.endswith("\n"):
        reason = 'the journal was cut off before this line: its last line is "end COUNT"'
    else:
        reason = "this line has no line feed, as where the journal was cut off in it"
    return f"{path}:{number}: {reason}\n"
