"""Tells the story of a call: `explain`.

Where the history has the call, and which locks a close, an exit or an unlock frees, the
program says: by `history`, and by `state` before the entry and behind it.
"""

from __future__ import annotations

import sys
from collections.abc import Iterator
from typing import Any, Optional

from nuvatsimo import faults, journal
from nuvatsimo.calls import Ended, Made, end_by, made_by
from nuvatsimo.journal import Entry, Source
from nuvatsimo.messages import Sent, Undelivered
from nuvatsimo.names import OPTION, Names, names_of
from nuvatsimo.taken import Gone, TakenLocks
from nuvatsimo.texts import holder_of, host_of, json_line, lock_of
from nuvatsimo.ways import Outlook, Way, names
from nuvatsimo.words import Argument, Command, Option

COMMAND = Command(
    "explain",
    "Tell the story of a call of a journal",
    (
        Argument("journal", "JOURNAL", "The journal: a file of lines, or - for standard input"),
        Argument("call", "CALL", "The call, by its name in replies and history, as 2.1.3"),
    ),
    (Option("--json", "Print the text as JSON"), OPTION),
    """\
The journal is audited first. Where its entries are no run, the text is 'audit no K', as
of 'lockreplay audit' (exit status 1).

CALL is the name of a call as replies and history show it: node 2, its incarnation 1, the
third call there. Each entry that has to do with the call is told (exit status 0):
  entry 9: process 1 of node 2 calls: ..    who made the call
  entry 10: message 4 comes to server 1     a message that names it; 4 as in 'deliver 4'
  sends message 5 to node 1: ..             a message that the entry sends
  in the way: LOCK, may be gone: LOCK       a lock that stops it; that its node told of
  reply: ..                                 its reply
  goes: file F LOCK, stays: file F LOCK     what a close, an exit, an unlock frees and leaves
  not delivered: ..                         a message about it that did not come
  lock of ..: dropped at entry K by ..      when the lock that it took went, and by what
  ended at entry K, gone since entry K      its process exits there, its node fails there
  history: at entry 13 (its reply)          where the one order has it
Up to the reply it also has failures and starts of its node, of its file's server, and of
nodes that this asked for a token or a report. Where the journal has no call of that
name, standard error says so (exit status 1).
""",
)
_FREEING = ("close", "exit", "unlock")
# So many parts of a lock are told, as the program is asked when each of them went.
_MOST_PARTS = 4
_ROLES = {
    (True, True): "its call and reply",
    (True, False): "its call",
    (False, True): "its reply",
    (False, False): "between call and reply",
}


class Told:
    """An entry of a story, and what is told of it."""

    def __init__(self, entry: Entry, call: str, heard: list[str]) -> None:
        self.position = entry.position
        self.event = entry.event
        self.heard = heard
        self.made: Optional[Made] = made_by(entry.event) if entry.made == call else None
        self.comes: Optional[Sent] = None
        self.reply = entry.reply if entry.answered == call else None
        self.goes: list[str] = []
        self.stays: list[str] = []
        self.sends: list[tuple[Sent, Optional[str], Optional[str]]] = []

    def lines(self, names: Names) -> Iterator[str]:
        """Yields its lines."""
        yield f"entry {self.position}: {self._happening(names)}"
        yield from (f"  the server hears that {host} failed" for host in self.heard)
        if self.reply is not None:
            yield f"  reply: {self.reply}"
        yield from (f"  goes: {_named_lock(lock, names)}" for lock in self.goes)
        yield from (f"  stays: {_named_lock(lock, names)}" for lock in self.stays)
        for sent, in_way, may_be_gone in self.sends:
            yield f"  sends message {sent.number} to {sent.to}: {sent.text}"
            if in_way is not None:
                yield f"  in the way: {in_way}"
            if may_be_gone is not None:
                yield f"  may be gone: {may_be_gone}"

    def document(self) -> dict[str, Any]:
        """Returns it for JSON."""
        told: dict[str, Any] = {"entry": self.position, "heard": self.heard}
        if self.made is not None:
            told["call"] = self.made.document()
        elif self.comes is not None:
            told["comes"] = {"number": self.comes.number, "to": self.comes.to}
        else:
            told["event"] = self.event
        if self.reply is not None:
            told["reply"] = self.reply
            told["goes"] = [_file_lock(lock) for lock in self.goes]
            told["stays"] = [_file_lock(lock) for lock in self.stays]
        told["sends"] = [_document_of(*sent) for sent in self.sends]
        return told

    def _happening(self, names: Names) -> str:
        if self.made is not None:
            return self.made.text(names)
        if self.comes is not None:
            return f"message {self.comes.number} comes to {self.comes.to}"
        return self.event


def _named_lock(text: str, names: Names) -> str:
    """Returns `file F LOCK` with the name of the file, if it has one."""
    _, file, lock = text.split(" ", 2)
    return f"{names.numbered_file(int(file))} {lock}"


def _file_lock(text: str) -> dict[str, Any]:
    """Returns the JSON of `file F LOCK`."""
    _, file, lock = text.split(" ", 2)
    return {"file": int(file), "lock": lock_of(lock)}


def _document_of(sent: Sent, in_way: Optional[str], gone: Optional[str]) -> dict[str, Any]:
    told = sent.document()
    if in_way is not None:
        told["in_way"] = lock_of(in_way)
    if gone is not None:
        told["may_be_gone"] = lock_of(gone)
    return told


class Story:
    """The story of a call, by the entries that it takes."""

    def __init__(self, outlook: Outlook) -> None:
        self.call = outlook.call
        self.entries: list[Told] = []
        self.undelivered = Undelivered()
        self.ended: Optional[Ended] = None
        self.made: Optional[Made] = None
        self.made_at = self.answered_at = 0
        self.place: Optional[int] = None
        self._way = Way(outlook)
        self._sent = 0
        self._numbers: dict[str, int] = {}
        self._locks: dict[str, str] = {}
        self._host = host_of(outlook.call)
        self._taken = TakenLocks()
        self.gone: list[Gone] = []

    def take(self, entry: Entry) -> None:
        """Takes an entry."""
        comes = entry.comes
        is_made = entry.made == self.call
        is_answered = entry.answered == self.call
        sends = [
            Sent(number, message)
            for number, message in enumerate(entry.sends, self._sent + 1)
            if self._way.has(message)
        ]
        self._sent += len(entry.sends)
        self._take_end(entry, is_made, is_answered)
        is_told = is_made or is_answered or bool(sends)
        is_told = is_told or (comes is not None and self._way.has(comes))
        if is_told or self._way.is_changed_by(entry):
            self._tell(entry, comes, sends)
        if comes is not None and names(comes, self.call):
            self.undelivered.come(comes)
        for sent in sends:
            if names(sent.text, self.call):
                self.undelivered.send(sent.number, sent.text)
        self._way.take(entry)
        self._follow(entry)

    def _follow(self, entry: Entry) -> None:
        """Takes note of locks of the call that go by an entry of its node."""
        names = entry.event.split(" ", 2)[1:2] + [entry.answered or ""]
        if any(name == self._host or name.startswith(f"{self._host}.") for name in names):
            gone = self._taken.take(entry)
            self.gone += [part for part in gone if part.lock.call == self.call]

    def ask(self, source: Source, place: Optional[int]) -> None:
        """Takes where the history has the call, and asks which locks it frees, or when its go."""
        self.place = place
        self.gone = [part for part in self.gone[:_MOST_PARTS] if part.is_so(source)]
        if self.made is None or self.made.op.partition(" ")[0] not in _FREEING:
            return
        told = next((told for told in self.entries if told.reply is not None), None)
        if told is not None:
            before = _locks_of(source.state(self.made_at - 1))
            behind = _locks_of(source.state(self.made_at))
            told.goes = [lock for lock in before if lock not in behind]
            told.stays = [lock for lock in behind if lock not in before]

    def lines(self, names: Names) -> Iterator[str]:
        """Yields the lines of the text."""
        yield f"call {self.call}"
        for told in self.entries:
            yield from told.lines(names)
        yield from (sent.undelivered() for sent in self.undelivered.sent())
        yield from (part.text(names) for part in self.gone)
        if self.place is not None:
            yield f"history: at entry {self.place} ({self._role()})"
        else:
            yield self.ended.text() if self.ended is not None else "open: no reply"

    def document(self) -> dict[str, Any]:
        """Returns the story for JSON."""
        history = None if self.place is None else {"entry": self.place, "role": self._role()}
        is_ended = self.place is None and self.ended is not None
        return {
            "call": self.call,
            "entries": [told.document() for told in self.entries],
            "undelivered": [sent.document() for sent in self.undelivered.sent()],
            "lock_gone": [part.document() for part in self.gone],
            "history": history,
            "ended": self.ended.document() if is_ended and self.ended is not None else None,
        }

    def _role(self) -> str:
        return _ROLES[self.place == self.made_at, self.place == self.answered_at]

    def _take_end(self, entry: Entry, is_made: bool, is_answered: bool) -> None:
        """Takes note of where the call is made, is answered, and ends."""
        if self.made is not None and self.ended is None:
            self.ended = end_by(entry, self.made)
        if is_made:
            self.made, self.made_at = made_by(entry.event), entry.position
        if is_answered:
            self.answered_at = entry.position

    def _tell(self, entry: Entry, comes: Optional[str], sends: list[Sent]) -> None:
        told = Told(entry, self.call, self._way.heard(entry))
        if comes in self._numbers:
            told.comes = Sent(self._numbers[comes], comes)
        told.sends = [(sent, *self._lock_of(sent.text)) for sent in sends]
        self._numbers.update((sent.text, sent.number) for sent in sends)
        self.entries.append(told)

    def _lock_of(self, message: str) -> tuple[Optional[str], Optional[str]]:
        """Returns the lock that a message names in the way, and the one that may be gone."""
        holder = holder_of(message) or ""
        if message.startswith("conflict "):
            self._locks[holder] = " ".join(message.split(" ")[-4:])
            return self._locks[holder], None
        return None, self._locks.get(holder) if message.startswith("freed ") else None


def _locks_of(state: list[str]) -> dict[str, None]:
    """Returns the locks of a state, as `file F LOCK`, in their order."""
    return dict.fromkeys(line[5:] for line in state if line.startswith("lock "))


def story_of(source: Source, call: str) -> Story:
    """Reads the story of a call from a journal. It ends the command where there is none."""
    history = source.history()
    outlook = Outlook(call)
    for entry in source.entries(is_audited=True):
        outlook.take(entry)
    if not outlook.is_made:
        raise faults.no_call(call)
    story = Story(outlook)
    for entry in source.entries(is_audited=True):
        story.take(entry)
    story.ask(source, history.get(call))
    return story


def main(words: list[str]) -> int:
    """Runs `explain`."""
    asked = COMMAND.parse(words)
    with journal.opened(asked.journal) as source:
        story = story_of(source, asked.call)
    if asked.json:
        sys.stdout.write(json_line(story.document()))
    else:
        names = names_of(asked.journal, asked.names)
        sys.stdout.writelines(f"{line}\n" for line in story.lines(names))
    return faults.DONE
