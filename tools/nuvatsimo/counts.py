"""Counts what a run has: `stats`.

Each touch of a span adds numbers at its first byte and takes them away behind its last one.
One walk over these points in order tells the numbers of each stretch.
"""

from __future__ import annotations

import sys
from collections.abc import Iterable, Iterator
from typing import Any

from nuvatsimo import faults, journal
from nuvatsimo.calls import LockCall, LockCalls
from nuvatsimo.journal import Entry
from nuvatsimo.names import OPTION, Names, names_of
from nuvatsimo.texts import EVENT_KINDS, MESSAGE_KINDS, json_line, span_of
from nuvatsimo.words import Argument, Command, Option

COLUMNS = (
    "locks", "unlocks", "queries", "denied", "open", "waited", "requests", "grants", "revokes",
    "released",
)  # fmt: skip
_AT = {name: at for at, name in enumerate(COLUMNS)}
# Of a message that touches bytes: its column, and where from the end of its words the span is.
_TOUCHING = {
    "request": (_AT["requests"], -4),
    "grant": (_AT["grants"], -2),
    "revoke": (_AT["revokes"], -4),
    "released": (_AT["released"], -2),
}
_REPLIES = {
    ("set", "done"): ("locks",),
    ("set", "again"): ("locks", "denied"),
    ("wait", "done"): ("locks",),
    ("wait", "again"): ("locks", "denied"),
    ("query", "free"): ("queries",),
    ("query", "blocked"): ("queries",),
    ("unlock", "done"): ("unlocks",),
}
Row = tuple[int, int, list[int]]

COMMAND = Command(
    "stats",
    "Count what a journal has",
    (Argument("journal", "JOURNAL", "The journal: a file of lines, or - for standard input"),),
    (Option("--json", "Print the text as JSON"), OPTION),
    """\
The journal is audited first. Where its entries are no run, the text is 'audit no K', as
of 'lockreplay audit' (exit status 1). Else the text has how many entries there are of each
kind, and how many messages of each kind were sent, again too, and delivered (exit status
0). By file a row 'FIRST LAST NUMBER..' stands for each longest stretch of bytes with the
same numbers. They count what touches a byte:
  locks              sets and waits that were done or denied, or are open
  denied, open       those among them that were denied, that are open
  unlocks, queries   those that got a reply
  waited             the sum of the entries from each of these calls to its reply
  requests, revokes  of tokens for the bytes that a call needs
  grants, released   what a node got, and gave up when it was asked
What a close or an exit drops is not counted.
""",
)


class FileCounts:
    """The messages about a file, and by byte what changes there of the numbers."""

    def __init__(self) -> None:
        self.messages = 0
        self._changes: dict[int, list[int]] = {}

    def touch(self, lo: int, hi: int, columns: Iterable[tuple[int, int]]) -> None:
        """Adds to columns of the bytes from lo to hi."""
        changes = self._changes
        first = changes.get(lo)
        if first is None:
            first = changes[lo] = [0] * len(COLUMNS)
        behind = changes.get(hi + 1)
        if behind is None:
            behind = changes[hi + 1] = [0] * len(COLUMNS)
        for column, number in columns:
            first[column] += number
            behind[column] -= number

    def rows(self) -> Iterator[Row]:
        """Yields each longest stretch of bytes with the same numbers, if one is not 0."""
        numbers = [0] * len(COLUMNS)
        begin = 0
        for point in sorted(self._changes):
            change = self._changes[point]
            if not any(change):
                continue
            if any(numbers):
                yield begin, point - 1, numbers
            numbers = [one + other for one, other in zip(numbers, change)]
            begin = point


class Counts:
    """Counts the entries that it takes."""

    def __init__(self) -> None:
        self.events = dict.fromkeys(EVENT_KINDS, 0)
        self.sent = dict.fromkeys(MESSAGE_KINDS, 0)
        self.delivered = dict.fromkeys(MESSAGE_KINDS, 0)
        self.files: dict[int, FileCounts] = {}
        self._calls = LockCalls()

    def take(self, entry: Entry) -> None:
        """Counts an entry."""
        kind, _, rest = entry.event.partition(" ")
        self.events[kind] += 1
        if kind == "deliver":
            self.delivered[rest.partition(" ")[0]] += 1
        for message in entry.sends:
            self._take_message(message.split(" "))
        call = self._calls.take(entry)
        if call is not None:
            self._take_call(call)

    def end(self) -> None:
        """Counts the calls that are open behind the last entry."""
        for call in self._calls.open():
            self._touch_call(call, ("locks", "open"), 0)

    def _take_message(self, words: list[str]) -> None:
        self.sent[words[0]] += 1
        file = self._file(int(words[1]))
        file.messages += 1
        touching = _TOUCHING.get(words[0])
        if touching is not None:
            column, at = touching
            file.touch(int(words[at]), int(words[at + 1]), ((column, 1),))

    def _take_call(self, call: LockCall) -> None:
        reply = (call.reply or "").partition(" ")[0]
        columns = _REPLIES.get((call.asked[0], reply))
        if columns is not None:
            self._touch_call(call, columns, (call.end or 0) - call.begin)

    def _touch_call(self, call: LockCall, columns: Iterable[str], waited: int) -> None:
        if call.file is None:
            return
        lo, hi = span_of(int(call.asked[-2]), int(call.asked[-1]))
        numbers = [(_AT[name], 1) for name in columns] + [(_AT["waited"], waited)]
        self._file(call.file).touch(lo, hi, numbers)

    def _file(self, number: int) -> FileCounts:
        found = self.files.get(number)
        if found is None:
            found = self.files[number] = FileCounts()
        return found


def text_lines(counts: Counts, names: Names) -> Iterator[str]:
    """Yields the lines of the text."""
    yield "entries"
    for kind, count in counts.events.items():
        yield f"{kind:<14}{count:>10}"
    yield "messages            sent delivered"
    for kind, count in counts.sent.items():
        yield f"{kind:<14}{count:>10}{counts.delivered[kind]:>10}"
    heading = f"{'first':>19} {'last':>19} " + " ".join(f"{name:>8}" for name in COLUMNS)
    for number, file in sorted(counts.files.items()):
        yield f"{names.numbered_file(number)} messages {file.messages}"
        yield heading
        for lo, hi, numbers in file.rows():
            yield f"{lo:>19} {hi:>19} " + " ".join(f"{count:>8}" for count in numbers)


def document_of(counts: Counts) -> dict[str, Any]:
    """Returns the counts for JSON."""
    files = []
    for number, file in sorted(counts.files.items()):
        rows = [{"lo": lo, "hi": hi, **dict(zip(COLUMNS, row))} for lo, hi, row in file.rows()]
        files.append({"file": number, "messages": file.messages, "bytes": rows})
    messages = {
        kind: {"sent": count, "delivered": counts.delivered[kind]}
        for kind, count in counts.sent.items()
    }
    return {"entries": counts.events, "messages": messages, "files": files}


def main(words: list[str]) -> int:
    """Runs `stats`."""
    asked = COMMAND.parse(words)
    with journal.opened(asked.journal) as source:
        source.audit()
        counts = Counts()
        for entry in source.entries(is_audited=True):
            counts.take(entry)
    counts.end()
    if asked.json:
        sys.stdout.write(json_line(document_of(counts)))
    else:
        names = names_of(asked.journal, asked.names)
        sys.stdout.writelines(f"{line}\n" for line in text_lines(counts, names))
    return faults.DONE
