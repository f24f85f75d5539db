"""Reads what the program's `state` prints: which lines are about a node or a file, and as JSON."""

from __future__ import annotations

import re
from typing import Any, Optional

from nuvatsimo.texts import call_of, lock_of, node_of

_SERVED = re.compile(r"serves, waits for node ([0-9]+) to answer: (.*)")
_EPOCH = re.compile(r"(works|failed) in epoch ([0-9]+)")
_REPORT = "waits for the report of node "
_DEAD = "knows dead "


def is_about(line: str, node: Optional[int], file: Optional[int]) -> bool:
    """Says whether a line has to do with the node and the file. None stands for any."""
    word, _, rest = line.partition(" ")
    words = rest.split(" ")
    if word == "node":
        return node in (None, int(words[0]))
    if word == "token":
        return _fits(node, node_of(words[0])) and _fits(file, int(words[2]))
    if word == "lock":
        return _fits(node, _owner_node(words[-1])) and _fits(file, int(words[1]))
    if word == "open":
        return _fits(node, node_of(words[0])) and _fits(file, int(words[4]))
    if word == "server":
        number, _, told = rest.partition(" ")
        return _fits(file, int(number)) and (node is None or node in _nodes_of(told, node))
    return True


def _fits(wanted: Optional[int], found: int) -> bool:
    return wanted is None or wanted == found


def _owner_node(owner: str) -> int:
    return node_of(owner.partition("@")[2])


def _nodes_of(told: str, node: int) -> tuple[int, ...]:
    """Returns the nodes that a line of a server is about. A line of its epoch is of each."""
    served = _SERVED.fullmatch(told)
    if served:
        return int(served[1]), _asker(served[2])
    if told.startswith(("queued: ", "waiting: ")):
        return (_asker(told),)
    if told.startswith("row "):
        return (node_of(told.split(" ", 2)[1]),)
    if told.startswith(_REPORT):
        return (int(told[len(_REPORT) :]),)
    if told.startswith(_DEAD):
        return (node_of(told[len(_DEAD) :]),)
    return (node,)


def _asker(request: str) -> int:
    return node_of(call_of(request) or "")


def document_of(lines: list[str]) -> dict[str, Any]:
    """Returns the state as JSON has it. Of a server that works `servers` has what it knows."""
    nodes: dict[int, dict[str, Any]] = {}
    epochs: dict[int, dict[str, Any]] = {}
    servers: dict[int, dict[str, Any]] = {}
    told: dict[str, Any] = {"tokens": [], "locks": [], "open": []}
    for line in lines:
        word, _, rest = line.partition(" ")
        words = rest.split(" ")
        if word == "state":
            told["after"] = int(words[-1])
        elif word == "node":
            number = int(words[0])
            nodes.setdefault(number, {"node": number, "live": None, "failed": None})
            nodes[number][words[1]] = words[2]
        elif word == "server":
            _take_server(epochs, servers, int(words[0]), rest.partition(" ")[2])
        else:
            _take_held(told, word, words)
    members = {"nodes": nodes, "epochs": epochs, "servers": servers}
    return {**told, **{name: list(found.values()) for name, found in members.items()}}


def _take_held(told: dict[str, Any], word: str, words: list[str]) -> None:
    """Takes a line of a token, a lock or an open call."""
    if word == "token":
        host, _, file, level, lo, hi = words
        run = {"level": level, "lo": int(lo), "hi": int(hi)}
        told["tokens"].append({"host": host, "file": int(file), **run})
    elif word == "lock":
        told["locks"].append({"file": int(words[1]), "lock": lock_of(" ".join(words[2:]))})
    elif word == "open":
        call, _, process, _, file, asks = words[:6]
        lock = lock_of(" ".join(words[6:]))
        known = {"call": call, "process": int(process), "file": int(file)}
        told["open"].append({**known, "asks": asks, "lock": lock})


def _take_server(
    epochs: dict[int, dict[str, Any]], servers: dict[int, dict[str, Any]], file: int, rest: str
) -> None:
    """Takes a line `server F REST`."""
    epoch = _EPOCH.fullmatch(rest)
    if epoch:
        epochs.setdefault(file, {"file": file, "works": None, "failed": None})
        epochs[file][epoch[1]] = int(epoch[2])
        if epoch[1] == "works":
            lists: dict[str, list[Any]] = {"served": [], "queued": [], "waiting": []}
            servers[file] = {"file": file, **lists, "rows": [], "awaited": [], "dead": []}
        return
    server = servers[file]
    served = _SERVED.fullmatch(rest)
    kind, colon, request = rest.partition(": ")
    if served:
        server["served"].append({"request": served[2], "node": int(served[1])})
    elif colon and kind in ("queued", "waiting"):
        server[kind].append(request)
    elif rest.startswith("row "):
        _, host, told = rest.split(" ", 2)
        _take_row(server["rows"], host, told)
    elif rest.startswith(_REPORT):
        server["awaited"].append(int(rest[len(_REPORT) :]))
    else:
        server["dead"].append(rest[len(_DEAD) :])


def _take_row(rows: list[dict[str, Any]], host: str, told: str) -> None:
    """Takes what a server's row of a node has. Its first line is that of its commands."""
    if told.startswith("commands "):
        count = int(told.partition(" ")[2])
        rows.append({"host": host, "commands": count, "token": [], "to_answer": None})
    elif told.startswith("token "):
        _, level, lo, hi = told.split(" ")
        rows[-1]["token"].append({"level": level, "lo": int(lo), "hi": int(hi)})
    else:
        rows[-1]["to_answer"] = told[len("is to answer: ") :]
