"""The processes of a script, with their descriptors, and the threads of recorded processes."""

from __future__ import annotations

from typing import NamedTuple, Optional

MOST_PROCESSES = 256
MOST_DESCRIPTORS = 64


class Place(NamedTuple):
    """A process of a script: its node, and its number there, both from 1."""

    node: int
    number: int


class OpenDescriptor(NamedTuple):
    """The path of an open descriptor, and its number in the script, if it has one there."""

    path: str
    slot: Optional[int]


def _lowest_free(used: int, most: int) -> Optional[int]:
    """Returns the lowest number below `most` that is not used. The bits of `used` say which are."""
    lowest = (~used & (used + 1)).bit_length() - 1
    return lowest if lowest < most else None


class ScriptProcess:
    """A process of a script: its descriptors, in order, by their numbers in the recording."""

    __slots__ = ("place", "descriptors", "_slots")

    def __init__(self, place: Place, parent: Optional[ScriptProcess] = None) -> None:
        self.place = place
        self.descriptors: dict[int, OpenDescriptor] = dict(parent.descriptors) if parent else {}
        self._slots = parent._slots if parent else 0

    def free_slot(self) -> Optional[int]:
        """Returns the lowest free descriptor in the script, if there is one."""
        return _lowest_free(self._slots, MOST_DESCRIPTORS)

    def has_scripted(self) -> bool:
        """Tells whether it has a descriptor in the script."""
        return self._slots != 0

    def add(self, fd: int, descriptor: OpenDescriptor) -> None:
        """It has the descriptor from now on."""
        self.descriptors[fd] = descriptor
        if descriptor.slot is not None:
            self._slots |= 1 << descriptor.slot

    def remove(self, fd: int) -> Optional[OpenDescriptor]:
        """It has no descriptor of that number any more. Returns the one that it had."""
        gone = self.descriptors.pop(fd, None)
        if gone is not None and gone.slot is not None:
            self._slots &= ~(1 << gone.slot)
        return gone


class ScriptProcesses:
    """The processes of the script that run, by the PIDs as which they were recorded."""

    def __init__(self) -> None:
        self._running: dict[int, ScriptProcess] = {}
        self._numbers: dict[int, int] = {}

    def running(self, pid: int) -> Optional[ScriptProcess]:
        """Returns the process as which a PID runs."""
        return self._running.get(pid)

    def free_place(self, node: int) -> Optional[Place]:
        """Returns the lowest process of the node that doesn't run, if there is one."""
        number = _lowest_free(self._numbers.get(node, 0), MOST_PROCESSES)
        return None if number is None else Place(node, number + 1)

    def begin(self, pid: int, place: Place, parent: Optional[ScriptProcess] = None) -> None:
        """A process begins, with the descriptors of its parent."""
        self._running[pid] = ScriptProcess(place, parent)
        self._numbers[place.node] = self._numbers.get(place.node, 0) | 1 << (place.number - 1)

    def end(self, pid: int) -> Optional[Place]:
        """The process of this PID is gone. Returns which one it was, if it ran."""
        process = self._running.pop(pid, None)
        if process is None:
            return None
        self._numbers[process.place.node] &= ~(1 << (process.place.number - 1))
        return process.place


class Threads:
    """The recorded threads, by their PIDs, and the processes that they belong to."""

    def __init__(self) -> None:
        self._processes: dict[int, int] = {}
        self._threads: dict[int, set[int]] = {}

    def process_of(self, pid: int) -> int:
        """Returns the PID of the process that a PID belongs to."""
        return self._processes.get(pid, pid)

    def __contains__(self, pid: int) -> bool:
        return pid in self._processes

    def add(self, pid: int, process: int) -> None:
        """The thread of the process runs from now on."""
        self._processes[pid] = process
        self._threads.setdefault(process, set()).add(pid)

    def remove(self, pid: int) -> None:
        """The thread goes."""
        process = self._processes.pop(pid, None)
        if process is not None:
            self._threads[process].discard(pid)

    def remove_of(self, process: int) -> None:
        """The threads of the process go."""
        for pid in self._threads.pop(process, ()):
            del self._processes[pid]
