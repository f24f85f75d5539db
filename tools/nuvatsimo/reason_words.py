"""Why the entries of a journal are no run, in words and as JSON."""

from __future__ import annotations

from dataclasses import dataclass
from typing import Any, Optional

from nuvatsimo.journal import Entry, Head
from nuvatsimo.texts import actor_of, node_of

_NOTHING = "nothing"
_NOT_KNOWN = "what its event makes is not known: version 1 has another limit of regions"
_STRANGER = 14

# What is said of the actor that an event is about, by the code of the refusal.
_OF_ACTOR = {
    10: "is not alive",
    11: "is alive",
    12: "was restarted too often",
    15: "was declared failed",
}
_WORDS = {13: "the process has an open call", 16: "the journal is full", 19: "no number is left"}


@dataclass(frozen=True)
class Lines:
    """The lines of an entry in a journal: of its event, of its answer, and of its messages."""

    event: str
    answer: Optional[str]
    sends: list[str]

    @staticmethod
    def of(lines: list[str]) -> Lines:
        """Takes the lines of an entry apart."""
        is_answered = len(lines) > 1 and lines[1].startswith("reply ")
        return Lines(lines[0], lines[1] if is_answered else None, lines[1 + is_answered :])

    @staticmethod
    def of_entry(entry: Entry) -> Lines:
        """Writes an entry as it stands in its journal."""
        event = f"entry {entry.position} {entry.event}"
        answer = f"reply {entry.answered} {entry.reply}" if entry.answered else None
        return Lines(event, answer, [f"send {message}" for message in entry.sends])

    @property
    def all(self) -> list[str]:
        """All of them, as they stand there."""
        return [self.event, *([self.answer] if self.answer else []), *self.sends]


@dataclass(frozen=True)
class Why:
    """Why an entry is not the next step.

    Its event is refused with a code, or makes other lines than those that were found. Where it
    is not known what its event makes, there is neither.
    """

    head: Head
    entry: Entry
    code: Optional[int] = None
    made: Optional[Lines] = None

    @property
    def found(self) -> Lines:
        """The lines that were found in the journal."""
        return Lines.of_entry(self.entry)


@dataclass(frozen=True)
class Difference:
    """The first part in which two entries differ, its line in the journal, and in each of them."""

    line: int
    part: str
    made: Optional[str]
    found: Optional[str]


def difference_of(why: Why, made: Lines) -> Optional[Difference]:
    """Returns where the entry that is made differs first from the one that was found, if it
    does."""
    found, line = why.found, why.entry.line
    if made.event != found.event:
        return Difference(line, "event", made.event, found.event)
    line += 1
    if made.answer != found.answer:
        return Difference(line, "reply", made.answer, found.answer)
    line += found.answer is not None
    for index in range(max(len(made.sends), len(found.sends))):
        one, other = made.sends[index : index + 1], found.sends[index : index + 1]
        if one != other:
            part = f"send {index + 1}"
            return Difference(line + index, part, *(one or [None]), *(other or [None]))
    return None


def text_of(why: Why) -> str:
    """Says why, in lines."""
    lines = [f"line {why.entry.line}: {why.found.event}"]
    if why.code is not None:
        lines.append(f"refused: code {why.code}, {reason_of(why)}")
    difference = difference_of(why, why.made) if why.made else None
    if difference:
        lines.append(f"first difference: line {difference.line}, {difference.part}")
        lines.append(f"  made:  {difference.made or _NOTHING}")
        lines.append(f"  found: {difference.found or _NOTHING}")
        lines += ["made", *why.made.all, "found", *why.found.all]
    if len(lines) == 1:
        lines.append(_NOT_KNOWN)
    return "".join(f"{line}\n" for line in lines)


def members_of(why: Why) -> dict[str, Any]:
    """Says why, as members of JSON."""
    members: dict[str, Any] = {"line": why.entry.line, "event": why.found.event}
    if why.code is not None:
        members["refused"] = {"code": why.code, "reason": reason_of(why)}
    difference = difference_of(why, why.made) if why.made else None
    if difference:
        members["difference"] = vars(difference)
        members["made"] = why.made.all
        members["found"] = why.found.all
    if len(members) == 2:
        members["reason"] = _NOT_KNOWN
    return members


def reason_of(why: Why) -> str:
    """Says why the event of an entry is refused."""
    if why.code == _STRANGER:
        return _words_of_stranger(why.head, why.entry)
    if why.code in _OF_ACTOR:
        return f"{_actor_at(why.entry)} {_OF_ACTOR[why.code]}"
    return _WORDS.get(why.code, "")


def _words_of_stranger(head: Head, entry: Entry) -> str:
    """Says why an event is not one of the cluster."""
    if entry.comes:
        return "the message was never sent"
    if entry.kind == "learn":
        _, file, host = entry.event.split(" ")
        if int(file) <= head.files and node_of(host) <= head.nodes:
            return "that incarnation was not declared failed"
    return "the cluster has no such node, process or file"


def _actor_at(entry: Entry) -> str:
    """Names the node or the server that takes the event, or is declared or started by it."""
    if entry.comes:
        kind, number = actor_of(entry.comes).split(" ")
    else:
        is_server = entry.kind in ("resend", "learn", "fail-server", "start-server")
        kind = "server" if is_server else "node"
        number = str(node_of(entry.event.split(" ", 2)[1]))
    return f"node {number}" if kind == "node" else f"the server of file {number}"
