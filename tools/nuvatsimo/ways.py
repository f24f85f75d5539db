"""Follows the way of a call to its reply: the server and the nodes on which it depends."""

from __future__ import annotations

from collections.abc import Iterable

from nuvatsimo.journal import Entry
from nuvatsimo.texts import call_of, file_of, holder_of, host_of


class Outlook:
    """What all entries say of a call: its server, and the nodes that were sent a revoke for it."""

    def __init__(self, call: str) -> None:
        self.call = call
        self.server = ""
        self.holders: set[str] = set()
        self.is_made = False

    def take(self, entry: Entry) -> None:
        """Takes an entry."""
        for message in entry.sends:
            if names(message, self.call):
                self.server = self.server or str(file_of(message))
                self.holders.update(revoked((message,), self.call))
        if entry.event.startswith(f"call {self.call} "):
            self.is_made = True


def names(message: str, call: str) -> bool:
    """Says whether a message names the call."""
    return call in message and call_of(message) == call


def revoked(messages: Iterable[str], call: str) -> list[str]:
    """Returns the nodes to which revokes for the call go."""
    found = (it for it in messages if it.startswith("revoke ") and names(it, call))
    return [holder_of(message) or "" for message in found]


class Way:
    """The way of a call, behind the entries that it took.

    `hosts` are the call's node and those that were sent a revoke for it, `awaited` the epochs
    and nodes of the reports that the server awaits. None is there whose failure it knows.
    """

    def __init__(self, outlook: Outlook) -> None:
        self.call = outlook.call
        self.is_open = False
        self._own = host_of(outlook.call)
        self._server = outlook.server
        self._holders = outlook.holders
        self._hosts: list[str] = []
        self._awaited: list[tuple[str, str]] = []
        self._tells = tuple(
            f"{front}{outlook.server}{end}"
            for front, end in (("learn ", " "), ("deliver request ", " "), ("start-server ", "."))
        )

    def has(self, message: str) -> bool:
        """Says whether a story has the message: it names the call, or a node of the way tells
        that locks may be gone."""
        if names(message, self.call):
            return True
        if not self.is_open or not message.startswith(f"freed {self._server} "):
            return False
        host = message.rpartition(" ")[2]
        return host in self._hosts and host != self._own

    def heard(self, entry: Entry) -> list[str]:
        """Returns the nodes of the way of which the server hears here that they failed."""
        if not self.is_open or not self._may_tell(entry):
            return []
        return [host for host in self._on_the_way() if self._knows(entry, host)]

    def is_changed_by(self, entry: Entry) -> bool:
        """Says whether the server or a node of the way fails or begins, or the server hears it."""
        kind, _, name = entry.event.partition(" ")
        if kind == "declare" and name in self._holders:
            return True
        if not self.is_open:
            return False
        if kind in ("fail-server", "start-server") and self._is_of_server(name):
            return True
        if kind == "declare":
            return name in self._on_the_way()
        if kind == "restart":
            return name in [_next_of(host) for host in self._on_the_way()]
        return bool(self.heard(entry))

    def take(self, entry: Entry) -> None:
        """Takes an entry."""
        if entry.made == self.call:
            self.is_open, self._hosts = True, [self._own]
        was_open = self.is_open
        may_tell = self._may_tell(entry)
        if entry.answered == self.call or (may_tell and self._knows(entry, self._own)):
            self.is_open = False
            self._holders = set() if was_open else self._holders
        if may_tell:
            self._hosts = [host for host in self._hosts if not self._knows(entry, host)]
        for holder in revoked(entry.sends, self.call):
            if holder not in self._hosts:
                self._hosts.append(holder)
        self._take_reports(entry, may_tell)

    def _take_reports(self, entry: Entry, may_tell: bool) -> None:
        kind, _, name = entry.event.partition(" ")
        if kind == "start-server" and self._is_of_server(name):
            self._awaited = _asked(entry)
            return
        if kind == "fail-server" and self._is_of_server(name):
            self._awaited = []
        if entry.event.startswith(f"deliver report {self._server} "):
            _, _, _, epoch, host, _ = entry.event.split(" ", 5)
            self._awaited = [it for it in self._awaited if it != (epoch, host)]
        if may_tell:
            self._awaited = [it for it in self._awaited if not self._knows(entry, it[1])]

    def _may_tell(self, entry: Entry) -> bool:
        """Says whether the server may hear of a failure by the entry."""
        return bool(self._server) and entry.event.startswith(self._tells)

    def _knows(self, entry: Entry, host: str) -> bool:
        """Says whether the server hears by such an entry that the node failed."""
        node, incarnation = _numbers(host)
        if entry.event.startswith("learn "):
            failed = _numbers(entry.event.split(" ")[2])
            return failed[0] == node and incarnation <= failed[1]
        if entry.event.startswith("deliver "):
            asks = _numbers(host_of(entry.event.split(" ", 4)[3]))
            return asks[0] == node and incarnation < asks[1]
        return host not in [report[1] for report in _asked(entry)]

    def _is_of_server(self, name: str) -> bool:
        return bool(self._server) and name.partition(".")[0] == self._server

    def _on_the_way(self) -> list[str]:
        return list(dict.fromkeys(self._hosts + [host for _, host in self._awaited]))


def _numbers(host: str) -> tuple[int, int]:
    node, _, incarnation = host.partition(".")
    return int(node), int(incarnation)


def _next_of(host: str) -> str:
    """Returns the incarnation in which a node begins behind this one."""
    node, incarnation = _numbers(host)
    return f"{node}.{incarnation + 1}"


def _asked(entry: Entry) -> list[tuple[str, str]]:
    """Returns the reports that a server asks for where it begins: their epochs and nodes."""
    hellos = [message.split(" ") for message in entry.sends if message.startswith("hello ")]
    return [(words[2], words[3]) for words in hellos]
