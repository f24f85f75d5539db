"""Makes a script of the locks and descriptors of recorded processes."""

from __future__ import annotations

from typing import NamedTuple, Optional

from nuvatsimo.names import quoted
from nuvatsimo.strace.happenings import (
    EXECUTES,
    LEFT_OUT,
    NOT_OPEN,
    SHARES_DESCRIPTORS,
    TOO_MANY_DESCRIPTORS,
    TOO_MANY_FILES,
    TOO_MANY_PROCESSES,
    GivesUp,
    LockCall,
    Notes,
    Nothing,
    Step,
    takers_of,
)
from nuvatsimo.strace.processes import (
    OpenDescriptor,
    Place,
    ScriptProcess,
    ScriptProcesses,
    Threads,
)
from nuvatsimo.strace.reader import events_of
from nuvatsimo.strace.waits import Asked, Waits

MOST_FILES = 256


class Script(NamedTuple):
    """The lines of a script, and the notes on what is left out of it.

    Behind each line stands the one of the recording that it is of. `names` are the lines that tell
    the names of its files and processes.
    """

    lines: list[tuple[str, int]]
    notes: str
    names: list[str]

    @property
    def text(self) -> str:
        """The text of the script."""
        return "".join(f"{line}\n" for line, _ in self.lines)

    @property
    def origins(self) -> list[int]:
        """The lines of the recording that its lines are of."""
        return [origin for _, origin in self.lines]


def script_of(recording: str, nodes: int, placings: dict[int, int]) -> Script:
    """Makes the script of a recording, for so many nodes.

    Processes of a PID that is placed by hand are on the node that `placings` has for it.
    """
    steps = _steps_of(recording)
    looked = _Scripting(nodes, placings, {}, True)
    looked.take_all(steps)
    files = looked.locked
    made = _Scripting(nodes, placings, files, len(files) == MOST_FILES)
    made.take_all(looked.waits.moved(steps))
    empty = (node for node in range(1, nodes + 1) if node not in made.used_nodes)
    notes = made.notes.text() + "".join(f"node {node} has no process\n" for node in empty)
    names = [f"file {number} is {quoted(path)}" for path, number in files.items()]
    front = [f"cluster nodes {nodes} files {max(1, len(files))} policy wide"]
    front += [f"# {name}" for name in names]
    names += [line[2:] for line in made.lines if line.startswith("# process ")]
    lines = [*zip(front, [0] * len(front)), *zip(made.lines, made.origins)]
    return Script(lines, notes, names)


def _steps_of(recording: str) -> list[Step]:
    """Returns what happens in a recording. How the calls passed is left out."""
    return [
        Step(event.line, event.pid, event.happening, event.passed.begin)
        for event in events_of(recording)
        if not isinstance(event.happening, Nothing)
    ]


def lock_text(slot: int, asked: LockCall) -> str:
    """Returns a lock call through a descriptor of the script, as a line of it has that."""
    kind = "desc" if asked.is_of_description else "proc"
    mode = f" {asked.mode}" if asked.mode else ""
    return f"{asked.wish} {slot} {kind}{mode} {asked.start} {asked.length}"


class _Scripting:
    """What is known of the recorded processes, and what the script has of them so far.

    `files` has the numbers of its files by their paths. With `every` who opens any file begins.
    """

    def __init__(
        self, nodes: int, placings: dict[int, int], files: dict[str, int], every: bool
    ) -> None:
        self._nodes = nodes
        self._placings = placings
        self._files = files
        self._every = every
        # The node of the next process that none of the script made.
        self._next = 1
        self._threads = Threads()
        self._processes = ScriptProcesses()
        # The PIDs of processes that stay out of the script.
        self._left: set[int] = set()
        # Whose waits are open; of several threads of a process each has its own.
        self._waiting: list[Place] = []
        self.locked: dict[str, int] = {}
        self.used_nodes: set[int] = set()
        # By the PIDs of processes the programs that they run, and where the script names them.
        self._programs: dict[int, str] = {}
        self._named_at: dict[int, int] = {}
        self._number = 0
        self._line = 0
        self.lines: list[str] = []
        # The lines of the recording that those are of.
        self.origins: list[int] = []
        self.waits = Waits()
        self.notes = Notes()
        self._takers = takers_of(self)

    def take_all(self, steps: list[Step]) -> None:
        """Takes the steps, in order."""
        process_of = self._threads.process_of
        for self._number, step in enumerate(steps):
            self._line = step.line
            self._takers[type(step.happening)](step, process_of(step.pid))

    def _add(self, *lines: str) -> None:
        self.lines += lines
        self.origins += [self._line] * len(lines)

    def _take_unserved(self, step: Step, pid: int) -> None:
        self.notes.add(step.line, step.happening.reason)

    def _call(self, place: Place, words: str) -> None:
        self._add(f"call {place.node} {place.number} {words}")

    # Begins and ends of processes.

    def _arrive(self, line: int, pid: int) -> None:
        """The process begins, if it doesn't run and isn't left out."""
        if self._processes.running(pid) is not None or pid in self._left:
            return
        node = self._placings.get(pid, self._next)
        place = self._processes.free_place(node)
        if place is None:
            self._leave_out(line, pid, TOO_MANY_PROCESSES)
            return
        self._tell_begin(place, pid)
        self._call(place, "spawn")
        self._processes.begin(pid, place)
        if pid not in self._placings:
            self._next = self._next % self._nodes + 1

    def _tell_begin(self, place: Place, pid: int) -> None:
        self.used_nodes.add(place.node)
        self._named_at[pid] = len(self.lines)
        self._add(f"# process {place.number} of node {place.node} is {self._name_of(pid)}")

    def _name_of(self, pid: int) -> str:
        program = self._programs.get(pid)
        return f"{quoted(program)}, PID {pid}" if program else f"PID {pid}"

    def _leave_out(self, line: int, pid: int, reason: str) -> None:
        self.notes.add(line, reason)
        self._left.add(pid)

    def _take_fork(self, step: Step, pid: int) -> None:
        child, shares = step.happening
        self._free(child)
        if pid in self._programs:
            self._programs[child] = self._programs[pid]
        parent = self._processes.running(pid)
        if pid in self._left:
            self._leave_out(step.line, child, LEFT_OUT)
        elif parent is not None and child not in self._placings:
            self._fork(step.line, parent, child, shares)

    def _fork(self, line: int, parent: ScriptProcess, child: int, shares: bool) -> None:
        """A process begins on the node of its parent, or is left out where that has no room."""
        place = self._processes.free_place(parent.place.node)
        if place is None:
            self._leave_out(line, child, TOO_MANY_PROCESSES)
            return
        self._tell_begin(place, child)
        self._call(parent.place, f"fork {place.number}")
        self._processes.begin(child, place, parent)
        if shares:
            self.notes.add(line, SHARES_DESCRIPTORS)

    def _take_thread(self, step: Step, pid: int) -> None:
        self._free(step.happening.thread)
        self._threads.add(step.happening.thread, pid)

    def _free(self, pid: int) -> None:
        """None has this PID any more."""
        self._threads.remove(pid)
        self._finish(pid)

    def _take_exit(self, step: Step, pid: int) -> None:
        if step.pid in self._threads and not step.happening.whole:
            self._threads.remove(step.pid)
        else:
            self._finish(pid)

    def _finish(self, pid: int) -> None:
        """The process exits, with its threads, its descriptors and its waits."""
        self._left.discard(pid)
        self._programs.pop(pid, None)
        self._named_at.pop(pid, None)
        self._threads.remove_of(pid)
        place = self._processes.end(pid)
        if place is not None:
            self._call(place, "exit")
            self._stop_waiting(place)

    def _stop_waiting(self, place: Place) -> None:
        if self._waiting:
            self._waiting = [other for other in self._waiting if other != place]

    # Descriptors.

    def _take_open(self, step: Step, pid: int) -> None:
        fd, path, access = step.happening
        self._open(step.line, pid, fd, path, access)

    def _take_refers(self, step: Step, pid: int) -> None:
        fd, path = step.happening
        if self._held(pid, fd) is None:
            self._open(step.line, pid, fd, path, "rw")

    def _open(self, line: int, pid: int, fd: int, path: str, access: str) -> None:
        """The process gets a descriptor of the file, in the script if that has the file."""
        file = self._files.get(path)
        if self._every or file is not None:
            self._arrive(line, pid)
        process = self._processes.running(pid)
        if process is None:
            return
        self._close(process, fd)
        slot = None if file is None else process.free_slot()
        if slot is not None:
            self._call(process.place, f"open {file} {access}")
        process.add(fd, OpenDescriptor(path, slot))

    def _take_duplicate(self, step: Step, pid: int) -> None:
        fd, to = step.happening
        process = self._processes.running(pid)
        if process is None or fd == to:
            return
        origin = process.descriptors.get(fd)
        self._close(process, to)
        if origin is None:
            return
        slot = None if origin.slot is None else process.free_slot()
        if slot is not None:
            self._call(process.place, f"dup {origin.slot}")
        process.add(to, OpenDescriptor(origin.path, slot))

    def _take_close(self, step: Step, pid: int) -> None:
        process = self._processes.running(pid)
        if process is not None:
            self._close(process, step.happening.fd)

    def _take_close_range(self, step: Step, pid: int) -> None:
        first, last = step.happening
        process = self._processes.running(pid)
        if process is not None:
            for fd in [fd for fd in process.descriptors if first <= fd <= last]:
                self._close(process, fd)

    def _close(self, process: ScriptProcess, fd: int) -> None:
        gone = process.remove(fd)
        if gone is not None and gone.slot is not None:
            self._call(process.place, f"close {gone.slot}")

    def _take_execute(self, step: Step, pid: int) -> None:
        process = self._processes.running(pid)
        if process is not None and process.has_scripted():
            self.notes.add(step.line, EXECUTES)
        if step.happening.program is not None:
            self._programs[pid] = step.happening.program
            self._name_again(pid)

    def _name_again(self, pid: int) -> None:
        """The process of the script has a name by the last program that it runs."""
        at = self._named_at.get(pid)
        if at is not None:
            self.lines[at] = f"{self.lines[at].partition(' is ')[0]} is {self._name_of(pid)}"

    def _held(self, pid: int, fd: int) -> Optional[OpenDescriptor]:
        process = self._processes.running(pid)
        return None if process is None else process.descriptors.get(fd)

    # Lock calls.

    def _take_ask(self, step: Step, pid: int) -> None:
        fd, asked, answer = step.happening
        held = self._held(pid, fd)
        if held is not None:
            self.waits.ask(self._number, step, Asked(pid, held.path, asked, answer))
        if pid in self._left:
            self.notes.add(step.line, LEFT_OUT)
        elif held is None:
            self.notes.add(step.line, NOT_OPEN)
        else:
            self._ask(step.line, pid, held, asked, answer)

    def _ask(
        self, line: int, pid: int, held: OpenDescriptor, asked: LockCall, answer: Optional[str]
    ) -> None:
        """The process makes the lock call, if its descriptor is in the script."""
        if len(self.locked) < MOST_FILES:
            self.locked.setdefault(held.path, len(self.locked) + 1)
        process = self._processes.running(pid)
        if process is None or held.slot is None:
            known = held.path in self._files
            self.notes.add(line, TOO_MANY_DESCRIPTORS if known else TOO_MANY_FILES)
            return
        self._call(process.place, lock_text(held.slot, asked))
        if answer is not None:
            self._add(f"# expect {answer}")
        if asked.wish == "wait":
            self._waiting.append(process.place)

    def _take_return(self, step: Step, pid: int) -> None:
        """A lock call returned: messages are delivered, and open waits tried again."""
        self.waits.back(self._number, step)
        process = self._processes.running(pid)
        held = self._held(pid, step.happening.fd)
        if process is None or held is None or held.slot is None:
            return
        node, number = process.place
        is_late = step.begin != step.line and process.place in self._waiting
        self._stop_waiting(process.place)
        retried = list(self._waiting)
        if isinstance(step.happening, GivesUp):
            self._add(f"interrupt {node} {number}")
        elif is_late:
            retried.insert(0, process.place)
        self._add("settle")
        if retried:
            self._add(*(f"retry {place.node} {place.number}" for place in retried), "settle")
