"""The calls of a journal: which are made, which get a reply, and which end without one."""

from __future__ import annotations

from typing import NamedTuple, Optional

from nuvatsimo.journal import Entry
from nuvatsimo.texts import host_of, node_of


class Call:
    """A call, the entry that makes it, and what became of it so far.

    `reply_at` is the place of the entry that replies, `end_at` that of the first entry behind
    the call at which its process exits or its node is declared failed.
    """

    __slots__ = ("position", "name", "host", "pid", "operation", "reply", "reply_at", "end_at")

    def __init__(self, position: int, name: str, pid: str, operation: str) -> None:
        self.position = position
        self.name = name
        self.host = host_of(name)
        self.pid = pid
        self.operation = operation
        self.reply: Optional[str] = None
        self.reply_at: Optional[int] = None
        self.end_at: Optional[int] = None

    @property
    def over_at(self) -> Optional[int]:
        """The place of the entry at which the call is over, or None."""
        return self.end_at if self.reply_at is None else self.reply_at

    @property
    def process(self) -> str:
        """The name of the process that makes it."""
        return f"process {self.pid} of {self.host}"

    @property
    def node(self) -> str:
        """The name of its node, as `node 1`."""
        return f"node {node_of(self.host)}"

    @property
    def outcome(self) -> str:
        """What became of it: its reply, where it ended, or `open`."""
        if self.reply is not None:
            return self.reply
        return "open" if self.end_at is None else f"ended at entry {self.end_at}"


class Step(NamedTuple):
    """What an entry means for calls."""

    made: Optional[Call]
    answered: Optional[Call]
    ended: list[Call]


class Calls:
    """Follows the calls that have no reply yet. A process has one at most."""

    def __init__(self) -> None:
        self._open: dict[str, dict[str, Call]] = {}

    def open(self) -> list[Call]:
        """Returns the calls without a reply, in the order of their entries."""
        calls = [call for of_host in self._open.values() for call in of_host.values()]
        return sorted(calls, key=lambda call: call.position)

    def take(self, entry: Entry) -> Step:
        """Takes the next entry."""
        made, ended = None, []
        if entry.event.startswith("call "):
            _, name, pid, operation = entry.event.split(" ", 3)
            made = Call(entry.position, name, pid, operation)
            if operation == "exit":
                ended = self._remove(made.host, pid)
            self._open.setdefault(made.host, {})[pid] = made
        elif entry.event.startswith("declare "):
            ended = list(self._open.pop(entry.event[8:], {}).values())
        for call in ended:
            call.end_at = entry.position
        answered = self._answered(entry) if entry.answered is not None else None
        return Step(made, answered, ended)

    def _remove(self, host: str, pid: str) -> list[Call]:
        call = self._open.get(host, {}).pop(pid, None)
        return [] if call is None else [call]

    def _answered(self, entry: Entry) -> Optional[Call]:
        of_host = self._open.get(host_of(entry.answered or ""), {})
        for pid, call in of_host.items():
            if call.name == entry.answered:
                del of_host[pid]
                call.reply, call.reply_at = entry.reply, entry.position
                return call
        return None
