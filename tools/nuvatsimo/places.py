"""Where the request of an open call is, and which locks block the call, by a state's lines."""

from __future__ import annotations

from bisect import bisect_left, bisect_right
from itertools import accumulate
from typing import Any, NamedTuple, Optional

from nuvatsimo.states import document_of
from nuvatsimo.texts import host_of, node_of, owner_order


class HeldCall(NamedTuple):
    """An open call of a live node: what it asks of which bytes, and for whom."""

    name: str
    process: str
    file: int
    asks: str
    mode: str
    lo: int
    hi: int
    owner: str


class Place:
    """Where a request is: the kind of place, and what that has more."""

    def __init__(self, server: int, kind: str, text: str, **more: Any) -> None:
        self._server = server
        self._kind = kind
        self._text = text
        self._more = more

    def text(self) -> str:
        """Returns the line that says it."""
        return f"{self._kind}: {self._text}"

    def document(self) -> dict[str, Any]:
        """Returns it for JSON."""
        return {"server": self._server, "is": self._kind, **self._more}


class FileLocks:
    """The locks of a file, by their first byte."""

    def __init__(self, locks: list[dict[str, Any]]) -> None:
        self._locks = sorted(locks, key=lambda lock: (lock["lo"], owner_order(lock["owner"])))
        self._first = [lock["lo"] for lock in self._locks]
        # The greatest last byte up to each lock: those before the first that reaches are over.
        self._reach = list(accumulate((lock["hi"] for lock in self._locks), max))

    def blockers(self, call: HeldCall) -> list[dict[str, Any]]:
        """Returns the locks of other owners that block the call."""
        begin = bisect_left(self._reach, call.lo)
        end = bisect_right(self._first, call.hi)
        return [
            lock
            for lock in self._locks[begin:end]
            if lock["hi"] >= call.lo
            and lock["owner"] != call.owner
            and "write" in (lock["mode"], call.mode)
        ]


class World:
    """What a state tells: the open calls of live nodes, the locks and the servers."""

    def __init__(self, lines: list[str]) -> None:
        told = document_of(lines)
        self.calls = {call["call"]: _held(call) for call in told["open"]}
        self._servers = {server["file"]: server for server in told["servers"]}
        self._works = {it["file"]: it["works"] is not None for it in told["epochs"]}
        locks: dict[int, list[dict[str, Any]]] = {}
        for held in told["locks"]:
            locks.setdefault(held["file"], []).append(held["lock"])
        self._locks = {file: FileLocks(found) for file, found in locks.items()}

    def blocking(self, call: HeldCall) -> list[dict[str, Any]]:
        """Returns the locks that block the call, by first byte and then by owner."""
        locks = self._locks.get(call.file)
        return locks.blockers(call) if locks is not None else []

    def blockers(self, call: HeldCall) -> list[str]:
        """Returns the same as texts."""
        found = self.blocking(call)
        return [f"{it['mode']} {it['lo']} {it['hi']} {it['owner']}" for it in found]

    def place(self, call: HeldCall, has_messages: bool) -> Place:
        """Returns where the request of the call is, of which messages are under way or not."""
        file = call.file
        if not self._works.get(file):
            return Place(file, "failed", f"server {file}")
        server = self._servers[file]
        found = _served(server, call) or _queued(server, call) or _waiting(server, call)
        if found is not None:
            return found
        helps = "" if has_messages else ": a retry asks again"
        text = f"server {file} has no request of it{helps}"
        return Place(file, "unknown", text, retry=not has_messages)


def _held(call: dict[str, Any]) -> HeldCall:
    lock = call["lock"]
    process = f"p{call['process']}@{host_of(call['call'])}"
    span = lock["mode"], lock["lo"], lock["hi"], lock["owner"]
    return HeldCall(call["call"], process, call["file"], call["asks"], *span)


def _asker(request: str) -> str:
    return request.split(" ", 3)[2]


def _span(request: str) -> tuple[int, int]:
    """Returns the bytes that a request needs."""
    words = request.split(" ")
    return int(words[5]), int(words[6])


def _served(server: dict[str, Any], call: HeldCall) -> Optional[Place]:
    served = next((it for it in server["served"] if _asker(it["request"]) == call.name), None)
    if served is None:
        return None
    node, file = served["node"], server["file"]
    rows = (row for row in server["rows"] if node_of(row["host"]) == node)
    command = next((row["to_answer"] for row in rows), None)
    text = f"server {file} waits for node {node} to answer: {command or ''}"
    return Place(file, "served", text, node=node, command=command)


def _queued(server: dict[str, Any], call: HeldCall) -> Optional[Place]:
    queue = [_asker(request) for request in server["queued"]]
    if call.name not in queue:
        return None
    file, awaited = server["file"], server["awaited"]
    if awaited:
        nodes = " ".join(f"node {node}" for node in awaited)
        text = f"at server {file}, which waits for reports of {nodes}"
        return Place(file, "queued", text, reports_of=awaited)
    at = queue.index(call.name)
    lo, hi = _span(server["queued"][at])
    before = [it["request"] for it in server["served"]] + server["queued"][:at]
    meeting = (it for it in before if _span(it)[0] <= hi and lo <= _span(it)[1])
    behind = next((_asker(request) for request in meeting), None)
    text = f"at server {file}" + (f", behind {behind}" if behind else "")
    return Place(file, "queued", text, behind=behind)


def _waiting(server: dict[str, Any], call: HeldCall) -> Optional[Place]:
    if call.name not in map(_asker, server["waiting"]):
        return None
    file = server["file"]
    return Place(file, "waiting", f"at server {file}, though no lock blocks it: a resend helps")
