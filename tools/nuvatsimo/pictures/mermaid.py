"""Draws a part of a journal as a sequence diagram, in Mermaid's text."""

from __future__ import annotations

from collections.abc import Iterator
from typing import Optional

from nuvatsimo.journal import Entry
from nuvatsimo.names import Names
from nuvatsimo.pictures.actors import sender_of, taker_of
from nuvatsimo.pictures.part import IS_UNDELIVERED, Part
from nuvatsimo.pictures.sheet import Sheet
from nuvatsimo.texts import actor_of, call_of, holder_of, node_of


def diagram(part: Part, history: dict[str, int], names: Names) -> Iterator[str]:
    """Yields the diagram in pieces. `history` has the entry at which it has each call."""
    actors = [row for row in Sheet(part).rows if not row.startswith("process ")]
    placed = {position: call for call, position in history.items()}
    yield "sequenceDiagram\n"
    for actor in actors:
        yield f"    participant {_short(actor)} as {_named(actor, names)}\n"
    everyone = f"{_short(actors[0])},{_short(actors[-1])}" if actors else ""
    for entry in part.entries:
        yield from _event(part, entry, everyone, placed.get(entry.position), names)
        yield from _told(entry, placed.get(entry.position))
        for message in entry.sends:
            if part.fate_of(entry.position, message) == IS_UNDELIVERED:
                yield _message(message, "-x")


def _short(actor: str) -> str:
    """Returns the name by which lines go to an actor: `N1` of node 1, `S1` of server 1."""
    kind, _, number = actor.partition(" ")
    return f"{kind[0].upper()}{number}"


def _named(actor: str, names: Names) -> str:
    """Returns an actor, and behind a server the name of its file."""
    kind, _, number = actor.partition(" ")
    name = names.of_file(int(number)) if kind == "server" else None
    return f"{actor} ({_plain(name)})" if name else actor


def _plain(name: str) -> str:
    """Returns a name without what Mermaid reads as its own."""
    return "".join("?" if letter in "#;:%" else letter for letter in name)


def _note(actor: str, text: str) -> str:
    return f"    Note over {actor}: {text}\n"


def _event(
    part: Part, entry: Entry, everyone: str, placed: Optional[str], names: Names
) -> Iterator[str]:
    """Tells the event of an entry: the history has the call `placed` there."""
    kind = entry.kind
    if kind == "call":
        _, call, pid, operation = entry.event.split(" ", 3)
        reply = f": {_reply(entry, placed)}" if entry.answered == call else ""
        name = names.of_process(node_of(call), int(pid))
        caller = f"p{pid} ({_plain(name)})" if name else f"p{pid}"
        yield _note(f"N{node_of(call)}", f"{caller} {operation} ({call}){reply}")
    elif entry.comes is not None:
        if entry.position in part.origins:
            yield _message(entry.comes, "->>")
    elif kind in ("interrupt", "retry", "resend"):
        yield _note(_short(taker_of(entry.event)), entry.event)
    else:
        yield _note(everyone, entry.event)


def _reply(entry: Entry, placed: Optional[str]) -> str:
    return f"{entry.reply}, in history" if entry.answered == placed else f"{entry.reply}"


def _told(entry: Entry, placed: Optional[str]) -> Iterator[str]:
    """Tells the reply to an earlier call, and a call that the history has without its reply."""
    call = entry.answered
    if call is not None and call != entry.made:
        yield _note(f"N{node_of(call)}", f"{call} {_reply(entry, placed)}")
    if placed is not None and placed != call:
        yield _note(f"N{node_of(placed)}", f"{placed} in history")


def _message(message: str, arrow: str) -> str:
    """Tells a message: what it is, and the call or else the host that it is about."""
    ends = f"{_short(sender_of(message))}{arrow}{_short(actor_of(message))}"
    subject = call_of(message) or holder_of(message)
    return f"    {ends}: {message.partition(' ')[0]} {subject}\n"
