"""Follows the lock calls of a journal: the file of each, and how it ends.

A call is about the file that the `open` of its descriptor named. Which descriptors a process
has follows from the replies to its own calls.
"""

from __future__ import annotations

from collections.abc import Iterator
from typing import Any, NamedTuple, Optional

from nuvatsimo.journal import Entry
from nuvatsimo.names import Names
from nuvatsimo.texts import host_of, node_of

_LOCK_CALLS = ("set", "wait", "unlock", "query")


class LockCall(NamedTuple):
    """A lock call with its reply. One that is open has neither end nor reply."""

    begin: int
    end: Optional[int]
    file: Optional[int]
    asked: list[str]
    reply: Optional[str]


class LockCalls:
    """Takes the entries of a run in order."""

    def __init__(self) -> None:
        self._files: dict[str, dict[tuple[str, str], int]] = {}
        self._open: dict[str, dict[str, tuple[str, LockCall]]] = {}
        self._owners: dict[str, str] = {}

    def take(self, entry: Entry) -> Optional[LockCall]:
        """Takes an entry, and returns the lock call that it answers, if it does."""
        if entry.event.startswith("call "):
            _, name, process, *asked = entry.event.split(" ")
            self._make(entry, name, process, asked)
        elif entry.event.startswith("declare "):
            host = entry.event[8:]
            self._files.pop(host, None)
            self._open.pop(host, None)
        return self._answered(entry) if entry.answered else None

    def open(self) -> Iterator[LockCall]:
        """Yields the sets and waits that are open behind the entries that were taken."""
        for calls in self._open.values():
            for _, call in calls.values():
                if call.asked[0] in ("set", "wait"):
                    yield call

    def _make(self, entry: Entry, name: str, process: str, asked: list[str]) -> None:
        host = host_of(name)
        if asked[0] in _LOCK_CALLS:
            file = self._files.get(host, {}).get((process, asked[1]))
            call = LockCall(entry.position, None, file, asked, None)
            self._open.setdefault(host, {})[process] = (name, call)
            return
        if asked[0] == "exit":
            self._open.get(host, {}).pop(process, None)
        if entry.answered == name:
            self._descriptors(host, process, asked, (entry.reply or "").split(" "))

    def _answered(self, entry: Entry) -> Optional[LockCall]:
        calls = self._open.get(host_of(entry.answered or ""), {})
        for process, (name, call) in calls.items():
            if name == entry.answered:
                del calls[process]
                return call._replace(end=entry.position, reply=entry.reply)
        return None

    def _descriptors(self, host: str, process: str, asked: list[str], reply: list[str]) -> None:
        """Takes note of the descriptors that a call makes or ends."""
        files = self._files.setdefault(host, {})
        if asked[0] == "open" and reply[0] == "fd":
            files[process, reply[1]] = int(asked[1])
        elif asked[0] == "dup" and reply[0] == "fd":
            files[process, reply[1]] = files[process, asked[1]]
        elif asked[0] == "close" and reply[0] == "done":
            files.pop((process, asked[1]), None)
        elif asked[0] == "fork" and reply[0] == "done":
            for (owner, descriptor), file in list(files.items()):
                if owner == process:
                    files[asked[1], descriptor] = file
        elif asked[0] == "exit" and reply[0] == "done":
            for key in [key for key in files if key[0] == process]:
                del files[key]


class Made(NamedTuple):
    """A call as its entry makes it."""

    name: str
    process: int
    node: int
    op: str

    def text(self, names: Names) -> str:
        """Says who makes it, and what it asks for."""
        return f"{names.process(self.node, self.process)} calls: {self.op}"

    def document(self) -> dict[str, Any]:
        """Returns it for JSON, without its name."""
        return {"process": self.process, "node": self.node, "op": self.op}


def made_by(event: str) -> Made:
    """Reads an event that makes a call."""
    _, name, process, op = event.split(" ", 3)
    return Made(name, int(process), node_of(name), op)


class Ended(NamedTuple):
    """How a call ended without a reply: its process exits, or its node is gone."""

    entry: int
    is_gone: bool

    def text(self) -> str:
        """Returns the line that says so."""
        return f"{'gone since' if self.is_gone else 'ended at'} entry {self.entry}"

    def document(self) -> dict[str, Any]:
        """Returns it for JSON."""
        return {"entry": self.entry, "gone": self.is_gone}


def end_by(entry: Entry, call: Made) -> Optional[Ended]:
    """Returns how an entry behind the call ends it without a reply, if it does."""
    host = host_of(call.name)
    if entry.event == f"declare {host}":
        return Ended(entry.position, True)
    front, _, op = entry.event.rpartition(" ")
    if op == "exit" and front.startswith(f"call {host}.") and front.endswith(f" {call.process}"):
        return Ended(entry.position, False)
    return None
