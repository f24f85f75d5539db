"""Follows which call took which locked bytes, and what takes them away again.

The replies of a run say it. What is told of it is asked of the program too: `is_so` looks
whether the lock is there before the entry, and no more behind it.
"""

from __future__ import annotations

from collections.abc import Iterator
from typing import Any, NamedTuple, Optional

from nuvatsimo.journal import Entry, Source
from nuvatsimo.names import Names
from nuvatsimo.pictures.calls import Call, Calls, Step
from nuvatsimo.pictures.descriptors import Descriptors, Place
from nuvatsimo.pictures.runs import Run, Runs
from nuvatsimo.texts import GREATEST, owner_order, span_of


class Lock(NamedTuple):
    """Locked bytes of a file, and the call and the descriptor by which the owner took them."""

    file: int
    owner: str
    call: str
    descriptor: str
    mode: str
    lo: int
    hi: int

    def bytes(self) -> str:
        """Returns which bytes they are."""
        return bytes_text(self.lo, self.hi)


class Gone(NamedTuple):
    """A lock that goes at an entry, by a call, or with its node where there is none."""

    lock: Lock
    entry: int
    by: Optional[Call]

    def is_trap(self) -> bool:
        """Says whether it goes by the close of another descriptor than that which took it."""
        words = self.by.operation.split(" ") if self.by is not None else [""]
        return words[0] == "close" and words[1] != self.lock.descriptor

    def is_taken_over(self) -> bool:
        """Says whether the owner locks the bytes by another call."""
        return self.by is not None and self.by.operation.startswith(("set ", "wait "))

    def text(self, names: Names) -> str:
        """Returns the line that says when and by what it goes."""
        how = "replaced" if self.is_taken_over() else "dropped"
        where = f"{names.numbered_file(self.lock.file)}, {self.lock.bytes()}"
        line = f"lock of {where}: {how} at entry {self.entry}"
        if self.by is None:
            return f"{line}, where its node is declared failed"
        other = ", of another descriptor" if self.is_trap() else ""
        return f"{line} by {self.by.name}: {self.by.operation}{other}"

    def document(self) -> dict[str, Any]:
        """Returns it for JSON."""
        by = None if self.by is None else {"call": self.by.name, "op": self.by.operation}
        span = {"lo": self.lock.lo, "hi": self.lock.hi}
        return {**span, "entry": self.entry, "by": by, "replaced": self.is_taken_over()}

    def is_so(self, source: Source) -> bool:
        """Asks the program whether the lock is there before the entry, and not behind it."""
        if self.is_taken_over():
            return True
        before = source.state(self.entry - 1)
        behind = source.state(self.entry)
        return self._is_in(before) and not self._is_in(behind)

    def _is_in(self, state: list[str]) -> bool:
        """Says whether a state has all the bytes of the lock locked in its mode."""
        lock = self.lock
        spans = [
            (int(words[3]), int(words[4]))
            for words in (line.split(" ")[1:] for line in state if line.startswith("lock "))
            if (words[1], words[2], words[5]) == (str(lock.file), lock.mode, lock.owner)
        ]
        return any(lo <= lock.lo and lock.hi <= hi for lo, hi in spans)


def bytes_text(lo: int, hi: int) -> str:
    """Returns which bytes a span has, in words."""
    if lo == hi:
        return f"byte {lo}"
    return f"bytes {lo} to {'the end' if hi == GREATEST else hi}"


class TakenLocks:
    """Takes the entries of a run, and tells which locks go."""

    def __init__(self) -> None:
        self._calls = Calls()
        self._descriptors: dict[str, Descriptors] = {}
        # By host and by place, the locked bytes; a value is the call, its descriptor and the mode.
        self._locks: dict[str, dict[Place, Runs]] = {}

    def take(self, entry: Entry) -> list[Gone]:
        """Takes the next entry, and returns the locks that go by it."""
        return self.follow(entry, self._calls.take(entry))

    def follow(self, entry: Entry, step: Step) -> list[Gone]:
        """Does the same with what the entry means for calls."""
        if entry.event.startswith("declare "):
            host = entry.event[8:]
            self._descriptors.pop(host, None)
            return list(self._all_gone(self._locks.pop(host, {}), entry.position, None))
        if step.answered is None:
            return []
        return self._answer(step.answered, entry.position)

    def place(self, call: Call) -> Place:
        """Returns the file and the owner of a lock call."""
        return self._descriptors_of(call.host).place(call)

    def blocking(self, place: Place, mode: str, lo: int, hi: int) -> list[str]:
        """Returns the owners of locks that block such a lock, in order."""
        file, owner = place
        found = [
            other
            for of_host in self._locks.values()
            for (held, other), runs in of_host.items()
            if held == file and other != owner
            if any("write" in (mode, it.rpartition(" ")[2]) for _, _, it in runs.within(lo, hi))
        ]
        return sorted(found, key=owner_order)

    def users(self, owner: str) -> list[tuple[str, str]]:
        """Returns the processes, each a host and a number, that are an owner or share it."""
        number, _, host = owner.partition("@")
        if number[0] == "p":
            return [(host, number[1:])]
        return [(host, pid) for pid in self._descriptors_of(host).users(int(number[1:]))]

    def _answer(self, call: Call, position: int) -> list[Gone]:
        """Takes a call with its reply."""
        of_host = self._locks.setdefault(call.host, {})
        descriptors = self._descriptors_of(call.host)
        words = call.operation.split(" ")
        if words[0] not in ("set", "wait", "unlock", "query"):
            places = descriptors.take(call)
            gone = {place: of_host.pop(place) for place in places if place in of_host}
            return list(self._all_gone(gone, position, call))
        if call.reply != "done":
            return []
        place = descriptors.place(call)
        runs = of_host.setdefault(place, Runs())
        span = span_of(int(words[-2]), int(words[-1]))
        value = None if words[0] == "unlock" else f"{call.name} {words[1]} {words[3]}"
        before = [(max(lo, span[0]), min(hi, span[1]), it) for lo, hi, it in runs.within(*span)]
        runs.change(*span, lambda _: value)
        return [Gone(_lock_of(place, run), position, call) for run in before]

    def _descriptors_of(self, host: str) -> Descriptors:
        if host not in self._descriptors:
            self._descriptors[host] = Descriptors(host)
        return self._descriptors[host]

    def _all_gone(
        self, gone: dict[Place, Runs], position: int, by: Optional[Call]
    ) -> Iterator[Gone]:
        for place, runs in gone.items():
            for run in runs:
                yield Gone(_lock_of(place, run), position, by)


def _lock_of(place: Place, run: Run) -> Lock:
    lo, hi, value = run
    call, descriptor, mode = value.split(" ")
    return Lock(*place, call, descriptor, mode, lo, hi)
