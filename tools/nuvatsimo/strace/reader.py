"""Reads the events of a recording, as `strace -f` writes it.

A process or thread is made, descriptors are closed and a program is executed where the call
begins; a file is opened where it returns. A lock that a set got is asked for where the call
returns, as is what is in the way. Any other lock call, as a wait, and one without an end, stands
where it begins. Other calls are passed over.
"""

from __future__ import annotations

from collections import deque
from typing import Iterator, Optional

from nuvatsimo.strace import calls
from nuvatsimo.strace.happenings import (
    NO_END,
    NO_PROCESS,
    NOT_BEGUN,
    NOT_UNDERSTOOD,
    NOTHING,
    Asks,
    Duplicates,
    Event,
    Executes,
    Exits,
    Forks,
    GivesUp,
    Happening,
    LockCall,
    Opens,
    Refers,
    Returns,
    StartsThread,
    SystemCall,
    Unserved,
)
from nuvatsimo.strace.lines import (
    Begun,
    Described,
    Gone,
    Resumed,
    Superseded,
    Whole,
    behind_time,
    described,
    is_aside,
    lines_of,
    number_in,
    said_in,
    timed_of,
)


class Pending:
    """A call that began: its line, its PID, its texts, and the event that it made, if any."""

    __slots__ = ("line", "pid", "name", "arguments", "event")

    def __init__(self, line: int, pid: int, name: str, arguments: str) -> None:
        self.line = line
        self.pid = pid
        self.name = name
        self.arguments = arguments
        self.event: Optional[Event] = None

    def passed(self, more: str, gave: str, end: Optional[int]) -> SystemCall:
        """Returns how the call passed, as far as this is known."""
        return SystemCall(self.name, self.arguments, more, gave, self.line, end)


def events_of(text: str) -> Iterator[Event]:
    """Yields the events of a recording, in order."""
    reader = _Reader()
    for number, line in enumerate(lines_of(text), 1):
        reader.take(number, line)
        yield from reader.closed()
    yield from reader.events


def is_recording(text: str) -> bool:
    """Tells whether some line is one of strace, or none says anything."""
    lines = [line for line in lines_of(text) if line.strip()]
    return not lines or any(map(_is_of_strace, lines))


def _is_of_strace(line: str) -> bool:
    process = timed_of(line)
    text = behind_time(line if process is None else process[1])
    return is_aside(text) or said_in(text) is not None


class _Reader:
    """Reads the lines. An event is held back while it, or one before it, may still change."""

    def __init__(self) -> None:
        self.events: deque[Event] = deque()
        # The calls that are under way, by the PIDs of who made them.
        self._pending: dict[int, Pending] = {}

    def closed(self) -> Iterator[Event]:
        """Yields the first events, up to one that may still change."""
        events = self.events
        while events and not events[0].is_open:
            yield events.popleft()

    def take(self, line: int, text: str) -> None:
        """Takes a line."""
        process = timed_of(text)
        if process is None:
            self._take_alone(line, behind_time(text))
            return
        pid, rest = process
        said = said_in(behind_time(rest))
        if isinstance(said, Whole):
            self._end(line, self._begin(line, pid, said), "", said.gave)
        elif isinstance(said, Begun):
            self._wait_for(self._begin(line, pid, said))
        elif isinstance(said, Resumed):
            self._resume(line, pid, said)
        elif isinstance(said, Gone):
            self._drop(pid)
            self._push(line, pid, Exits(False), SystemCall("", "", "", said.how, line, line))
        elif isinstance(said, Superseded):
            self._supersede(line, pid, said.thread)
        elif said is None:
            self._push(line, pid, Unserved(NOT_UNDERSTOOD))

    def _take_alone(self, line: int, text: str) -> None:
        """Takes what a line says that has no PID."""
        if not is_aside(text):
            reason = NOT_UNDERSTOOD if said_in(text) is None else NO_PROCESS
            self._push(line, 0, Unserved(reason))

    def _push(
        self, line: int, pid: int, happening: Happening, passed: Optional[SystemCall] = None
    ) -> Event:
        """Puts an event last."""
        event = Event(line, pid, happening, passed or SystemCall("", "", "", "", line, None))
        self.events.append(event)
        return event

    def _wait_for(self, call: Pending) -> None:
        """Holds a call that is under way. Its process or thread has no other."""
        self._drop(call.pid)
        self._pending[call.pid] = call
        if call.event is not None:
            call.event.is_open = True

    def _drop(self, pid: int) -> Optional[Pending]:
        """Takes away the call of this PID that is under way. Its event stays as it is."""
        call = self._pending.pop(pid, None)
        if call is not None and call.event is not None:
            call.event.is_open = False
        return call

    def _supersede(self, line: int, pid: int, thread: int) -> None:
        """A thread is gone, and its call goes on as one of its process."""
        self._drop(pid)
        call = self._drop(thread)
        if call is not None:
            call.pid = pid
            self._wait_for(call)
        self._push(line, thread, Exits(False))

    def _resume(self, line: int, pid: int, said: Resumed) -> None:
        """Takes the end of a call that began in a line above."""
        call = self._drop(pid)
        if call is None:
            self._push(line, pid, Unserved(NOT_BEGUN))
        else:
            self._end(line, call, said.arguments, said.gave)

    def _begin(self, line: int, pid: int, said: Whole | Begun) -> Pending:
        """Takes the beginning of a call. Some calls make an event there."""
        call = Pending(line, pid, said.name, said.arguments)
        if call.name in calls.FCNTLS:
            happening = self._begun_fcntl(call)
        else:
            happening = _begun_in(call.name, call.arguments)
        if happening is not None:
            call.event = self._push(line, pid, happening, call.passed("", "", None))
        return call

    def _begun_fcntl(self, call: Pending) -> Optional[Happening]:
        """Returns the lock call that an `fcntl` call makes where it sets a lock or none."""
        read = calls.fcntl_in(call.arguments)
        if read is None:
            return Unserved(NOT_UNDERSTOOD)
        file, command = read
        if not isinstance(command, calls.Sets):
            return None
        try:
            asked = calls.set_in(command, file.rest)
        except calls.Refused as refused:
            return Unserved(refused.reason)
        self._refer(call.line, call, file, asked, call.passed("", "", None))
        return Asks(file.number, asked, None)

    def _refer(
        self, line: int, call: Pending, file: Described, asked: LockCall, passed: SystemCall
    ) -> None:
        """Takes what is told of the descriptor of a lock call.

        Of a lock of its open file description more matters than its file: who else has that.
        """
        path = file.path()
        if path is not None and not asked.is_of_description:
            self._push(line, call.pid, Refers(file.number, path), passed)

    def _end(self, line: int, call: Pending, more: str, gave: str) -> None:
        """Takes the end of a call, with these more arguments."""
        passed = call.passed(more, gave, line)
        event = call.event
        if event is None:
            made = described(gave)
            if made is not None:
                self._end_other(line, call, passed, made)
            return
        event.passed = passed
        if isinstance(event.happening, Asks):
            self._end_asked(line, call.pid, event, passed)
        elif call.name in calls.FORKS:
            event.happening = _child_in(call.arguments, gave)
        elif gave.startswith("-1") and (call.name in calls.EXECS or call.name == "close_range"):
            event.happening = NOTHING

    def _end_asked(self, line: int, pid: int, event: Event, passed: SystemCall) -> None:
        """Takes the end of a lock call that set a lock or none.

        A lock that a set got is asked for here, and any other where the call began. A process
        that was killed in its call got no answer.
        """
        fd, asked, _ = event.happening
        gave = passed.gave
        asks = Asks(fd, asked, calls.answer_in(asked.wish, gave))
        if asked.wish == "set" and gave == "0":
            event.happening = NOTHING
            self._push(line, pid, asks, passed)
        else:
            event.happening = asks
        if gave != "?":
            gives_up = asked.wish == "wait" and calls.is_given_up(gave)
            happening = GivesUp(fd) if gives_up else Returns(fd)
            self._push(line, pid, happening, passed)

    def _end_other(self, line: int, call: Pending, passed: SystemCall, made: Described) -> None:
        """Takes the end of a call that made no event yet, and that returned this number."""
        name, happening = call.name, None
        if name in calls.FCNTLS:
            self._end_fcntl(line, call, passed, made.number)
        elif name in calls.OPENS:
            happening = _open_in(call, made)
        elif name in calls.DUPS:
            fd = number_in(call.arguments)
            happening = Unserved(NOT_UNDERSTOOD) if fd is None else Duplicates(fd, made.number)
        elif name == "ioctl" and calls.closing_in(name, call.arguments) is not None:
            happening = NOTHING
        if happening is not None:
            self._push(line, call.pid, happening, passed)

    def _end_fcntl(self, line: int, call: Pending, passed: SystemCall, number: int) -> None:
        """Takes the end of an `fcntl` call that set no lock."""
        read = calls.fcntl_in(call.arguments)
        if read is None:
            return
        file, command = read
        if command is calls.DUPLICATES:
            self._push(line, call.pid, Duplicates(file.number, number), passed)
        elif command is calls.MARKS:
            self._push(line, call.pid, NOTHING, passed)
        elif isinstance(command, calls.Queries):
            self._end_query(line, call, passed, file, command)

    def _end_query(
        self, line: int, call: Pending, passed: SystemCall, file: Described, command: calls.Queries
    ) -> None:
        """Takes the end of a lock call that asked what is in the way."""
        structure = passed.more or file.rest
        try:
            asked, answer = calls.query_in(command, structure)
        except calls.Refused as refused:
            self._push(line, call.pid, Unserved(refused.reason), passed)
            return
        self._refer(line, call, file, asked, passed)
        self._push(line, call.pid, Asks(file.number, asked, answer), passed)
        self._push(line, call.pid, Returns(file.number), passed)


def _begun_in(name: str, arguments: str) -> Optional[Happening]:
    """Returns what a call other than `fcntl` does where it begins, if it does something there."""
    if name == "close":
        return calls.close_in(arguments)
    if name in calls.FORKS:
        return Unserved(NO_END)
    if name in calls.EXECS:
        return Executes(calls.program_in(arguments))
    if name == "close_range":
        return calls.close_range_in(arguments)
    return Exits(True) if name == "exit_group" else None


def _open_in(call: Pending, made: Described) -> Happening:
    """Returns what a call did that opened a file."""
    try:
        path, access = calls.open_in(call.name, call.arguments, made.path())
    except calls.Refused as refused:
        return Unserved(refused.reason)
    return Opens(made.number, path, access)


def _child_in(arguments: str, gave: str) -> Happening:
    """Returns the process or thread that a call made, if it made one."""
    child = number_in(gave)
    if child is None:
        return NOTHING
    if "CLONE_THREAD" in arguments:
        return StartsThread(child)
    return Forks(child, "CLONE_FILES" in arguments)
