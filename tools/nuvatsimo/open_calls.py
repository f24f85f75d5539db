"""Lists the calls of a run that have no reply, and why each is open: `open`.

What nodes and servers hold at the end is what the program's `state` prints.
"""

from __future__ import annotations

import sys
from collections.abc import Iterator
from typing import Any, Optional

from nuvatsimo import faults, journal
from nuvatsimo.calls import Ended, Made, end_by, made_by
from nuvatsimo.cycles import Users, cycles_of, owners_in_the_way
from nuvatsimo.journal import Entry, Source
from nuvatsimo.messages import Undelivered
from nuvatsimo.names import OPTION, Names, names_of
from nuvatsimo.places import Place, World
from nuvatsimo.taken import TakenLocks
from nuvatsimo.texts import call_of, host_of, json_line, lock_of
from nuvatsimo.waits import Cycle, Waits, cycle_words, waits_text
from nuvatsimo.words import Argument, Command, Option

COMMAND = Command(
    "open",
    "List the calls of a journal that have no reply",
    (Argument("journal", "JOURNAL", "The journal: a file of lines, or - for standard input"),),
    (
        Option("--ever", "List each cycle of waits that stood, and behind which entries"),
        Option("--json", "Print the text as JSON"),
        OPTION,
    ),
    """\
The journal is audited first. Where its entries are no run, the text is 'audit no K', as
of 'lockreplay audit' (exit status 1).

Each call that has no reply at the journal's end is told: since which entry it is open,
whose it is, what it asks, and why it is open (exit status 0):
  blocked: LOCK    a lock in the way of a wait
  failed: ..       its server does not work
  served: ..       its request is served, and a node has to answer a command first
  queued: ..       its request waits behind another, or until nodes have reported
  waiting: ..      its server does not know that a lock went: a resend helps
  unknown: ..      its server has no request of it
Messages about it that were not delivered follow. Last come cycles of waits, one for each
knot: a call waits for another where a lock of that one's process blocks it, or a lock of
the description through which the other asks. 'lockreplay explain' tells more of a call.

With --ever the cycles are those that stood anywhere in the run, each with the first entry
and the last behind which it stood. A cycle is a possible one where a process that shares a
description, and is not in the cycle, could unlock.
""",
)
# So many cycles that stood are looked at in the program's state too.
_MOST = 10


class Unanswered:
    """A call that no entry replied to so far."""

    def __init__(self, entry: int, made: Made) -> None:
        self.entry = entry
        self.made = made
        self.ended: Optional[Ended] = None
        self.undelivered = Undelivered()


class OpenCalls:
    """Takes the entries of a run, and keeps the calls without a reply."""

    def __init__(self) -> None:
        self._sent = 0
        self._open: dict[str, dict[str, Unanswered]] = {}
        self._over: list[Unanswered] = []

    def take(self, entry: Entry) -> None:
        """Takes an entry."""
        if entry.event.startswith("deliver "):
            message = entry.event[8:]
            call = self._about(message)
            if call is not None:
                call.undelivered.come(message)
        elif entry.event.startswith("declare ") or entry.event.endswith(" exit"):
            self._end(entry)
        if entry.event.startswith("call "):
            made = made_by(entry.event)
            calls = self._open.setdefault(host_of(made.name), {})
            calls[made.name] = Unanswered(entry.position, made)
        for message in entry.sends:
            self._sent += 1
            call = self._about(message)
            if call is not None:
                call.undelivered.send(self._sent, message)
        if entry.answered:
            self._open.get(host_of(entry.answered), {}).pop(entry.answered, None)

    def calls(self) -> list[Unanswered]:
        """Returns the calls without a reply, in their order."""
        found = self._over + [call for calls in self._open.values() for call in calls.values()]
        return sorted(found, key=lambda call: call.entry)

    def _about(self, message: str) -> Optional[Unanswered]:
        name = call_of(message)
        return None if name is None else self._open.get(host_of(name), {}).get(name)

    def _end(self, entry: Entry) -> None:
        """Ends the calls that the entry ends without a reply."""
        name = entry.event.split(" ", 2)[1]
        calls = self._open.get(name if entry.kind == "declare" else host_of(name), {})
        for call in list(calls.values()):
            call.ended = end_by(entry, call.made)
            if call.ended is not None:
                self._over.append(calls.pop(call.made.name))


class Told:
    """What is told of a call: how it ended, or why it is open."""

    def __init__(self, call: Unanswered, world: World) -> None:
        self.call = call
        self.blocked: list[str] = []
        self.place: Optional[Place] = None
        held = world.calls.get(call.made.name)
        if call.ended is None and held is not None:
            self.blocked = world.blockers(held)
            if not self.blocked or held.asks != "wait":
                self.place = world.place(held, has_messages=bool(call.undelivered.sent()))

    def lines(self, names: Names) -> Iterator[str]:
        """Yields its lines."""
        call = self.call
        yield f"open {call.made.name} since entry {call.entry}: {call.made.text(names)}"
        if call.ended is not None:
            yield f"  {call.ended.text()}"
        for lock in self.blocked:
            yield f"  blocked: {lock}"
        if self.place is not None:
            yield f"  {self.place.text()}"
            for sent in call.undelivered.sent():
                yield f"  {sent.undelivered()}"

    def document(self) -> dict[str, Any]:
        """Returns it for JSON."""
        call = self.call
        told = {"call": call.made.name, "entry": call.entry, **call.made.document()}
        if call.ended is not None:
            return {**told, "ended": call.ended.document()}
        told["blocked"] = [lock_of(lock) for lock in self.blocked]
        if self.place is not None:
            told["request"] = self.place.document()
            told["messages"] = [sent.document() for sent in call.undelivered.sent()]
        return told


class Report:
    """The open calls of a journal, and the cycles of waits: with `ever` of those that stood."""

    def __init__(self, source: Source, names: Names, ever: bool = False) -> None:
        self._names = names
        self._ever = ever
        world = World(source.state())
        calls, waits = OpenCalls(), Waits()
        for entry in source.entries(is_audited=True):
            calls.take(entry)
            if ever:
                waits.take(entry)
        self._told = [Told(call, world) for call in calls.calls()]
        self._cycles = cycles_of(world, _users_of(source, world))
        self._stood = [it for at, it in enumerate(waits.cycles) if at >= _MOST or _is_so(source, it)]

    def lines(self) -> Iterator[str]:
        """Yields the lines of the text."""
        for told in self._told:
            yield from told.lines(self._names)
        if self._ever:
            yield from (cycle.text() for cycle in self._stood)
            return
        for calls, is_certain in self._cycles:
            yield f"{cycle_words(is_certain)}: {waits_text(calls)}"

    def document(self) -> dict[str, Any]:
        """Returns the report for JSON."""
        cycles = {
            "cycles": [calls for calls, is_certain in self._cycles if is_certain],
            "possible_cycles": [calls for calls, is_certain in self._cycles if not is_certain],
        }
        if self._ever:
            cycles["ever"] = [cycle.document() for cycle in self._stood]
        return {"open": [told.document() for told in self._told], **cycles}


def _users_of(source: Source, world: World) -> Users:
    """Returns what tells the processes of an owner. Those of a description stand in the journal."""
    locks = TakenLocks()
    if any(owner.startswith("d") for owner in owners_in_the_way(world)):
        for entry in source.entries(is_audited=True):
            locks.take(entry)
    return lambda owner: [f"p{pid}@{host}" for host, pid in locks.users(owner)]


def _is_so(source: Source, cycle: Cycle) -> bool:
    """Asks the program whether a lock blocks each call of a cycle where it began."""
    world = World(source.state(cycle.begin))
    return all(name in world.calls and world.blocking(world.calls[name]) for name in cycle.calls)


def main(words: list[str]) -> int:
    """Runs `open`."""
    asked = COMMAND.parse(words)
    with journal.opened(asked.journal) as source:
        report = Report(source, names_of(asked.journal, asked.names), asked.ever)
    if asked.json:
        sys.stdout.write(json_line(report.document()))
    else:
        sys.stdout.writelines(f"{line}\n" for line in report.lines())
    return faults.DONE
