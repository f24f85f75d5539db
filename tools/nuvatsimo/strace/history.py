"""Makes a history of what the clients of recordings saw of their locks."""

from __future__ import annotations

from typing import NamedTuple, Optional

from nuvatsimo.strace import calls
from nuvatsimo.strace.clients import (
    ClientProcess,
    ClientProcesses,
    Description,
    Descriptor,
)
from nuvatsimo.strace.happenings import (
    NOT_OPEN,
    Event,
    Exits,
    LockCall,
    Notes,
    SystemCall,
    Unserved,
    takers_of,
)
from nuvatsimo.strace.lines import number_in
from nuvatsimo.strace.reader import events_of
from nuvatsimo.strace.times import LineTimes, Stretch
from nuvatsimo.texts import GREATEST


class ToldCall(NamedTuple):
    """A line of the history: when, whose call, its file or None, and its words and reply."""

    begin: int
    end: Optional[int]
    owner: str
    file: Optional[str]
    is_lock_call: bool
    words: str


class History(NamedTuple):
    """The text of a history, and the notes on what is left out of it."""

    text: str
    notes: str


class NoLocks(Exception):
    """No lock call is recorded whose file is known."""


class Recording(NamedTuple):
    """A recording: the name of its machine, if it has one, its text, and the times of its lines."""

    machine: Optional[str]
    text: str
    times: LineTimes


def history_of(recordings: list[Recording]) -> History:
    """Makes the history of recordings."""
    step = 1 if any(recording.times.are_fine() for recording in recordings) else 1000
    told: list[ToldCall] = []
    notes = ""
    for recording in recordings:
        clients = _Clients(recording, len(recordings) == 1, step)
        for event in events_of(recording.text):
            clients.take(event)
        told += clients.told
        noted = clients.notes.text()
        named = f"machine {recording.machine}:\n" if noted and recording.machine else ""
        notes += named + noted
    told.sort(key=lambda call: call.begin)
    front = ["history 1 clock us" if step > 1 else "history 1 clock ns"]
    for machine, _, times in recordings:
        if machine is not None:
            front.append(f"machine {machine} skew {-(-times.cut() // step)}")
    return History("\n".join([*front, *_lines_of(told, step), ""]), notes)


def _lines_of(told: list[ToldCall], step: int) -> list[str]:
    """Returns the lines of the calls that may touch a lock.

    A client that made no lock call has no lock to touch.
    """
    askers = {call.owner for call in told if call.is_lock_call}
    files = {call.file for call in told if call.is_lock_call}
    if not askers:
        raise NoLocks
    return [
        f"call {call.begin // step} {'-' if call.end is None else call.end // step} {call.words}"
        for call in told
        if call.is_lock_call
        or (call.owner in askers and (call.file is None or call.file in files))
    ]


def asked_text(file: str, asked: LockCall) -> str:
    """Returns a lock call on a file, as a line of a history has that."""
    mode = f" {asked.mode}" if asked.mode else ""
    return f"{asked.wish} {calls.as_word(file)}{mode} {asked.start} {asked.length}"


def is_segment(asked: LockCall) -> bool:
    """Tells whether the segment of a lock call has bytes of a file, and no others."""
    start, length = asked.start, asked.length
    return start >= 0 and start + min(length, 0) >= 0 and start + max(length, 1) - 1 <= GREATEST


class _Clients:
    """What is known of the clients of a recording, and what they did to locks so far."""

    def __init__(self, recording: Recording, is_alone: bool, step: int) -> None:
        self._is_alone = is_alone
        self._times = recording.times
        self._step = step
        self._machine = "" if recording.machine is None else f"@{recording.machine}"
        self._processes = ClientProcesses(self._machine)
        # The last lock calls that got their locks, by the PIDs of who made them: the line where
        # each began, and the descriptor.
        self._asking: dict[int, tuple[int, Descriptor]] = {}
        self.told: list[ToldCall] = []
        self.notes = Notes()
        self._takers = takers_of(self)

    def take(self, event: Event) -> None:
        """Takes an event."""
        happening, passed = event.happening, event.passed
        if isinstance(happening, Unserved):
            self.notes.add(event.line, happening.reason)
            return
        if isinstance(happening, Exits) and not happening.whole:
            self._end_member(event.pid, event.line, passed.gave.startswith("killed by "))
            return
        process = self._processes.running_from(event.pid, passed.begin)
        taker = self._takers.get(type(happening))
        if taker is not None:
            taker(process, event, passed)
        if passed.end is not None and passed.gave != "?":
            process.see(passed.begin)

    def _stretch_of(self, passed: SystemCall) -> Stretch:
        """Returns when a call was made that passed so."""
        end = None
        if passed.end is not None and passed.gave != "?":
            end = self._times.end(passed.begin, passed.end, self._step)
        return Stretch(self._times.at(passed.begin), end)

    def _tell(self, owner: str, file: Optional[str], words: str, stretch: Stretch) -> None:
        """The owner did this, and not by a lock call."""
        done = "" if stretch.end is None else " -> done"
        call = ToldCall(*stretch, owner, file, False, f"{owner} {words}{done}")
        self.told.append(call)

    # Descriptors.

    def _take_open(self, process: ClientProcess, event: Event, passed: SystemCall) -> None:
        description = Description(event.happening.path, f"d{event.line}{self._machine}")
        closes = calls.gives_closing(passed.arguments)
        self._open(process, event.happening.fd, description, passed, closes)

    def _take_refers(self, process: ClientProcess, event: Event, passed: SystemCall) -> None:
        """A descriptor that isn't known was opened before the recording."""
        fd, path = event.happening
        if fd not in process.descriptors:
            self._open(process, fd, Description(path, None), passed, False)

    def _open(
        self,
        process: ClientProcess,
        fd: int,
        description: Description,
        passed: SystemCall,
        closes: bool,
    ) -> None:
        """The process gets a descriptor.

        If the descriptor was another before, that one went, unrecorded, since the process got it.
        """
        before = process.descriptors.get(fd)
        if before is not None:
            begin = self._times.at(before.since)
            self._close(process, fd, Stretch(begin, self._stretch_of(passed).end))
        process.descriptors[fd] = Descriptor(passed.begin, description, closes)

    def _take_duplicate(self, process: ClientProcess, event: Event, passed: SystemCall) -> None:
        fd, to = event.happening
        if fd == to:
            return
        self._close(process, to, self._stretch_of(passed))
        origin = process.descriptors.get(fd)
        if origin is not None:
            origin.description.hold()
            closes = calls.gives_closing(passed.arguments)
            process.descriptors[to] = Descriptor(passed.begin, origin.description, closes)

    def _take_close(self, process: ClientProcess, event: Event, passed: SystemCall) -> None:
        self._close(process, event.happening.fd, self._stretch_of(passed))

    def _take_close_range(self, process: ClientProcess, event: Event, passed: SystemCall) -> None:
        first, last = event.happening
        self._close_all(process, [fd for fd in process.descriptors if first <= fd <= last], passed)

    def _take_execute(self, process: ClientProcess, event: Event, passed: SystemCall) -> None:
        closing = [fd for fd, descriptor in process.descriptors.items() if descriptor.closes]
        self._close_all(process, closing, passed)

    def _close_all(self, process: ClientProcess, fds: list[int], passed: SystemCall) -> None:
        stretch = self._stretch_of(passed)
        for fd in fds:
            self._close(process, fd, stretch)

    def _close(self, process: ClientProcess, fd: int, stretch: Stretch) -> None:
        """The descriptor goes in this stretch of time, and locks on the file with it."""
        gone = process.descriptors.pop(fd, None)
        if gone is not None:
            self._tell_close(process.owner, gone.description.file, stretch)
            self._release(gone.description, stretch)

    def _tell_close(self, owner: str, file: str, stretch: Stretch) -> None:
        self._tell(owner, file, f"close {calls.as_word(file)}", stretch)

    def _release(self, description: Description, stretch: Stretch) -> None:
        """A descriptor of the description goes, and with the last one the description."""
        gone = description.release(stretch)
        if gone is not None and description.owner is not None:
            self._tell_close(description.owner, description.file, gone)

    # Begins and ends of processes.

    def _take_fork(self, process: ClientProcess, event: Event, passed: SystemCall) -> None:
        child, shares = event.happening
        self._forget(child)
        if shares:
            self._processes.share(process, child)
            return
        copies = {fd: descriptor.copy() for fd, descriptor in process.descriptors.items()}
        self._processes.begin(child, event.line, copies)

    def _take_thread(self, process: ClientProcess, event: Event, passed: SystemCall) -> None:
        self._forget(event.happening.thread)
        self._processes.share(process, event.happening.thread)

    def _take_exit(self, process: ClientProcess, event: Event, passed: SystemCall) -> None:
        process.leave(event.line)

    def _forget(self, pid: int) -> None:
        """The one of this PID runs no more: another gets it, though no end of it is recorded."""
        process = self._processes.running(pid)
        if process is not None:
            self._end(process, pid, Stretch(self._times.at(process.gone_from(True)), None))

    def _end_member(self, pid: int, line: int, is_killed: bool) -> None:
        """The one of this PID runs no more, as this line tells."""
        process = self._processes.running(pid)
        if process is not None:
            begin = self._times.at(process.gone_from(is_killed))
            self._end(process, pid, Stretch(begin, self._times.at(line)))

    def _end(self, process: ClientProcess, pid: int, stretch: Stretch) -> None:
        """The one of this PID runs as the process no more. With the last one the process goes."""
        process.members.discard(pid)
        if process.members:
            return
        for descriptor in process.descriptors.values():
            self._release(descriptor.description, stretch)
        self._tell(process.owner, None, "exit", stretch)

    # Lock calls.

    def _take_nothing(self, process: ClientProcess, event: Event, passed: SystemCall) -> None:
        """Marks descriptors, or begins a lock call that got its lock, told where it returned."""
        if passed.gave == "0":
            marked = _marked_in(passed)
            if marked is not None:
                process.mark(*marked)
        if not passed.name.startswith("fcntl"):
            return
        read = calls.fcntl_in(passed.arguments)
        if read is None or not isinstance(read[1], calls.Sets):
            return
        descriptor = process.descriptors.get(read[0].number)
        if descriptor is not None:
            self._asking[event.pid] = passed.begin, descriptor

    def _take_ask(self, process: ClientProcess, event: Event, passed: SystemCall) -> None:
        """The process makes a lock call. Its descriptor may be another by the end of that."""
        fd, asked, answer = event.happening
        begin, through = self._asking.get(event.pid, (None, None))
        if begin != passed.begin:
            through = process.descriptors.get(fd)
        owner = through and (
            through.description.owner if asked.is_of_description else process.owner
        )
        if through is None or owner is None:
            self.notes.add(event.line, NOT_OPEN)
            return
        if not is_segment(asked):
            return
        stretch = self._stretch_of(passed)
        outcome = None if stretch.end is None else self._outcome(asked, answer, passed)
        reply = "" if outcome is None else f" -> {outcome}"
        file = through.description.file
        words = f"{owner} {asked_text(file, asked)}{reply}"
        self.told.append(ToldCall(*stretch, owner, file, True, words))

    def _outcome(
        self, asked: LockCall, answer: Optional[str], passed: SystemCall
    ) -> Optional[str]:
        """Returns what a lock call answered, as a history says it, if that is known."""
        if asked.wish != "query":
            return calls.outcome_in(asked.wish, passed.gave)
        if answer is None or answer == "free":
            return answer
        mode = answer.split(" ")[1]
        holder = self._holder(passed.more or passed.arguments)
        return f"blocked {mode} {asked.start} {asked.length} {holder}"

    def _holder(self, structure: str) -> str:
        """Returns the owner of the lock that F_GETLK tells of.

        Of several machines each has PIDs of its own, so it is not known.
        """
        pid = calls.holder_in(structure) if self._is_alone else None
        process = None if pid is None else self._processes.last_of(pid)
        return "?" if process is None else process.owner


def _marked_in(passed: SystemCall) -> Optional[tuple[int, int, bool]]:
    """Returns the first and the last descriptor that a call marks, and whether they close.

    They close, or don't, where a program is executed.
    """
    if passed.name == "close_range":
        ends = calls.range_in(passed.arguments)
        return ends and (*ends, True)
    closes = calls.closing_in(passed.name, passed.arguments)
    fd = number_in(passed.arguments)
    return None if closes is None or fd is None else (fd, fd, closes)
