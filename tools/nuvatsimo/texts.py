"""What the tools share about the texts of journals: spans, locks, owners, names, and JSON."""

from __future__ import annotations

import json
import re
from typing import Any, Optional

GREATEST = 2**63 - 1
EVENT_KINDS = (
    "call", "deliver", "interrupt", "retry", "resend", "declare", "restart", "learn",
    "fail-server", "start-server",
)  # fmt: skip
MESSAGE_KINDS = (
    "request", "grant", "revoke", "taken", "released", "conflict", "deny", "freed", "hello",
    "report",
)  # fmt: skip
TO_NODES = ("grant", "revoke", "deny", "hello")
CALL = re.compile(r"[0-9]+\.[0-9]+\.[0-9]+")
HOST = re.compile(r"[0-9]+\.[0-9]+")
_CALL_WORD = re.compile(r"(?<![^ ])[0-9]+\.[0-9]+\.[0-9]+(?![^ ])")
_HOST_WORD = re.compile(r"(?<![^ ])[0-9]+\.[0-9]+(?![^ ])")


def span_of(start: int, length: int) -> tuple[int, int]:
    """Returns the first and the last byte of a segment as in `struct flock`."""
    if length == 0:
        return start, GREATEST
    return (start, start + length - 1) if length > 0 else (start + length, start - 1)


def host_of(call: str) -> str:
    """Returns the node and its incarnation from the name of a call: 2.1 of 2.1.3."""
    return call.rpartition(".")[0]


def node_of(name: str) -> int:
    """Returns the node from the name of a call or a host: 2 of 2.1.3."""
    return int(name.partition(".")[0])


def call_of(message: str) -> Optional[str]:
    """Returns the call that a message names, or None."""
    found = _CALL_WORD.search(message)
    return found and found[0]


def holder_of(message: str) -> Optional[str]:
    """Returns the holder that a message names, as 2.1, or None."""
    found = _HOST_WORD.search(message)
    return found and found[0]


def file_of(message: str) -> int:
    """Returns the file that a message is about."""
    return int(message.split(" ", 2)[1])


def actor_of(message: str) -> str:
    """Returns who takes a message: `node N` or `server F`."""
    kind = message.partition(" ")[0]
    if kind not in TO_NODES:
        return f"server {file_of(message)}"
    name = call_of(message) if kind in ("grant", "deny") else holder_of(message)
    return f"node {node_of(name or '')}"


def owner_order(owner: str) -> tuple[int, int, bool, int]:
    """Returns the place of an owner: by node, incarnation, processes first, number."""
    number, _, host = owner.partition("@")
    node, _, incarnation = host.partition(".")
    return int(node), int(incarnation), number[0] == "d", int(number[1:])


def lock_of(text: str) -> dict[str, Any]:
    """Returns the JSON of a lock, which is `MODE LO HI OWNER` as text."""
    mode, lo, hi, owner = text.split(" ")
    return {"mode": mode, "lo": int(lo), "hi": int(hi), "owner": owner}


def json_line(document: Any) -> str:
    """Returns a document as JSON in one line, with its members in the order of their names."""
    return json.dumps(document, sort_keys=True, separators=(",", ":"), ensure_ascii=False) + "\n"
