"""The processes and open file descriptions of a recording, as owners of locks."""

from __future__ import annotations

from typing import Optional

from nuvatsimo.strace.times import Stretch


class Description:
    """An open file description: its file, and the owner as which it has locks.

    The owner is None where the open isn't recorded. The description goes with the last
    descriptor that refers to it.
    """

    __slots__ = ("file", "owner", "_count", "_begin", "_end")

    def __init__(self, file: str, owner: Optional[str]) -> None:
        self.file = file
        self.owner = owner
        self._count = 1
        self._begin = 0
        self._end: Optional[int] = 0

    def hold(self) -> None:
        """Another descriptor refers to it."""
        self._count += 1

    def release(self, stretch: Stretch) -> Optional[Stretch]:
        """A descriptor goes. Returns when the description went, if it was the last one."""
        self._count = max(0, self._count - 1)
        self._begin = max(self._begin, stretch.begin)
        if self._end is not None:
            self._end = None if stretch.end is None else max(self._end, stretch.end)
        return None if self._count else Stretch(self._begin, self._end)


class Descriptor:
    """An open descriptor: the line where the process got it, and what it refers to.

    With `closes` it closes where a program is executed.
    """

    __slots__ = ("since", "description", "closes")

    def __init__(self, since: int, description: Description, closes: bool) -> None:
        self.since = since
        self.description = description
        self.closes = closes

    def copy(self) -> Descriptor:
        """Returns a descriptor of its own of the same description."""
        self.description.hold()
        return Descriptor(self.since, self.description, self.closes)


class ClientProcess:
    """A recorded process, with all that share its descriptors and so its locks."""

    __slots__ = ("owner", "members", "descriptors", "_last", "_leaves")

    def __init__(
        self, pid: int, owner: str, line: int, descriptors: dict[int, Descriptor]
    ) -> None:
        self.owner = owner
        # The PIDs of those that run as it: its own, and those of its threads and sharers.
        self.members = {pid}
        # By their numbers, in the order in which it got them.
        self.descriptors = descriptors
        # The line where the last call began that returned, or where it was made.
        self._last = line
        # The line of its first `exit_group`.
        self._leaves: Optional[int] = None

    def see(self, line: int) -> None:
        """A call that began in this line returned."""
        self._last = max(self._last, line)

    def leave(self, line: int) -> None:
        """It leaves, by a call in this line."""
        if self._leaves is None:
            self._leaves = line

    def gone_from(self, is_killed: bool) -> int:
        """Returns the line from which on it may be gone.

        Where it was killed, this is the line of its last sign of life.
        """
        return self._last if is_killed or self._leaves is None else self._leaves

    def mark(self, first: int, last: int, closes: bool) -> None:
        """Its descriptors in this range close where a program is executed, or don't."""
        if first == last:
            marked = [first] if first in self.descriptors else []
        else:
            marked = [fd for fd in self.descriptors if first <= fd <= last]
        for fd in marked:
            self.descriptors[fd].closes = closes


class ClientProcesses:
    """The processes of a recording. A PID that comes again names another process."""

    def __init__(self, machine: str) -> None:
        # What stands behind the names of owners: `@` and the machine, or nothing.
        self._machine = machine
        # The last process that one of a PID runs or ran as, and how many had it as their own.
        self._last: dict[int, ClientProcess] = {}
        self._lives: dict[int, int] = {}

    def last_of(self, pid: int) -> Optional[ClientProcess]:
        """Returns the last process that one of this PID runs or ran as."""
        return self._last.get(pid)

    def running(self, pid: int) -> Optional[ClientProcess]:
        """Returns the process that one of this PID runs as."""
        process = self._last.get(pid)
        return process if process is not None and pid in process.members else None

    def running_from(self, pid: int, line: int) -> ClientProcess:
        """Returns the same. Where none runs, a process begins in this line."""
        return self.running(pid) or self.begin(pid, line, {})

    def begin(self, pid: int, line: int, descriptors: dict[int, Descriptor]) -> ClientProcess:
        """A process of this PID begins in this line, with these descriptors."""
        life = self._lives.get(pid, 0) + 1
        self._lives[pid] = life
        owner = f"p{pid}{self._machine}" if life == 1 else f"p{pid}.{life}{self._machine}"
        process = ClientProcess(pid, owner, line, descriptors)
        self._last[pid] = process
        return process

    def share(self, process: ClientProcess, pid: int) -> None:
        """One of this PID runs as the process too."""
        process.members.add(pid)
        self._last[pid] = process
