"""Who takes part in entries, by names as `node 1` and `server 1`."""

from __future__ import annotations

from nuvatsimo.journal import Entry
from nuvatsimo.texts import TO_NODES, actor_of, file_of, node_of

# Where a node or a server fails or begins again.
RULES = ("declare", "restart", "fail-server", "start-server")
_AT_SERVERS = ("resend", "learn", "fail-server", "start-server")


def taker_of(event: str) -> str:
    """Returns who takes an event."""
    kind, _, rest = event.partition(" ")
    if kind == "deliver":
        return actor_of(rest)
    name = rest.partition(" ")[0]
    return f"server {node_of(name)}" if kind in _AT_SERVERS else f"node {node_of(name)}"


def sender_of(message: str) -> str:
    """Returns who sends a message."""
    if message.partition(" ")[0] in TO_NODES:
        return f"server {file_of(message)}"
    name = next(word for word in message.split(" ") if "." in word)
    return f"node {node_of(name)}"


def busy_in(entry: Entry) -> set[str]:
    """Returns who takes the event, sends what comes there, or is sent to."""
    busy = {taker_of(entry.event), *map(actor_of, entry.sends)}
    if entry.comes is not None:
        busy.add(sender_of(entry.comes))
    return busy


def lanes(busy: set[str]) -> tuple[list[str], list[str], list[str]]:
    """Returns the first half of the nodes, the servers, and the other nodes."""
    numbered = sorted((int(name.split(" ")[1]), name) for name in busy)
    nodes = [name for _, name in numbered if name.startswith("node ")]
    servers = [name for _, name in numbered if name.startswith("server ")]
    half = (len(nodes) + 1) // 2
    return nodes[:half], servers, nodes[half:]
