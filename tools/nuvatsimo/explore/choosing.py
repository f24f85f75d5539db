"""Chooses by chance what comes next in a schedule of a seed."""

from __future__ import annotations

from collections import deque
from typing import NamedTuple, Optional, TypeVar

from nuvatsimo.explore.chance import Chance
from nuvatsimo.explore.playing import Made
from nuvatsimo.explore.processes import Processes
from nuvatsimo.scripts import Call, ScriptLine

# Of so many messages one is lost.
_LOST = 8
# Of so many deliveries one is done again later.
_REPEATED = 16
# Of so many choices one is a failure, until there was one.
_FAILED = 32
# How often, one after the other, what has no answer is asked for again.
_ROUNDS = 8

Value = TypeVar("Value")


class Letter(NamedTuple):
    """A message that may come, by its number, and whether it came before."""

    number: int
    is_repeat: bool


class Letters:
    """The messages that may come."""

    def __init__(self) -> None:
        self._letters: list[Letter] = []
        self._sent = 0

    def __len__(self) -> int:
        return len(self._letters)

    def settle(self, sent: int) -> None:
        """So many were sent, and none of them may come."""
        self._letters.clear()
        self._sent = sent

    def see(self, sent: int) -> None:
        """So many were sent by now. The new ones may come."""
        self._letters += (Letter(at + 1, False) for at in range(self._sent, sent))
        self._sent = sent

    def take(self, index: int) -> Letter:
        """Takes out a message."""
        return take(self._letters, index)

    def repeat(self, number: int) -> None:
        """A message that comes may come again."""
        self._letters.append(Letter(number, True))


def take(values: list[Value], index: int) -> Value:
    """Takes out the value at an index. The last one comes to its place."""
    values[index], values[-1] = values[-1], values[index]
    return values.pop()


class Chooser:
    """What comes next in a schedule of a script.

    It knows which lines of the script are still to come, what each process is to do, which
    messages are under way, and what else is to happen at some time, or at once.
    """

    def __init__(self, lines: list[ScriptLine], seed: int, has_failures: bool) -> None:
        self._lines = lines
        self._chance = Chance(seed)
        self._taken = 0
        self._is_over = False
        self._processes = Processes()
        self._files: list[int] = []
        self._letters = Letters()
        self._due: list[str] = []
        self._queue: deque[str] = deque()
        self._sent = 0
        self._is_settling = False
        self._rounds = 0
        self._failed: set[str] = set()
        self._may_fail_node = has_failures
        self._may_fail_server = has_failures
        self._begin_phase()

    def see(self, entries: list[Made]) -> None:
        """Takes note of the entries that the last line made."""
        for entry in entries:
            self._see(entry)
        if self._is_settling:
            self._letters.settle(self._sent)
        self._letters.see(self._sent)

    def next(self) -> Optional[str]:
        """Returns the next line of the schedule, or None where it is over."""
        if not self._queue:
            self._fill()
        line = self._queue.popleft() if self._queue else None
        self._is_settling = line == "settle"
        return line

    def _see(self, entry: Made) -> None:
        self._sent += len(entry.sends)
        if self._processes.see(entry):
            self._rounds = 0
        word, _, rest = entry.event.partition(" ")
        if word == "declare":
            node, _, incarnation = rest.partition(".")
            self._due += (f"learn {file} {node} {incarnation}" for file in self._files)
            self._failed.add(f"node {node}")
        elif word == "restart":
            self._failed.discard(f"node {rest.partition('.')[0]}")
        elif word == "fail-server":
            self._failed.add(f"server {rest.partition('.')[0]}")
        elif word == "start-server":
            self._failed.discard(f"server {rest.partition('.')[0]}")

    def _fill(self) -> None:
        """Puts what comes next into the queue, if anything does."""
        line = self._choose()
        if line is not None:
            self._queue.append(line)
            return
        if self._rounds < _ROUNDS:
            self._rounds += 1
            self._ask_again()
        if not self._queue:
            self._end_phase()

    def _choose(self) -> Optional[str]:
        """Draws one of all that may come next, or returns None where nothing may."""
        ready, letters = self._processes.count_ready(), len(self._letters)
        count = ready + letters + len(self._due)
        if count == 0:
            return None
        failure = self._failure()
        if failure is not None:
            return failure
        index = self._chance.below(count)
        if index < ready:
            return self._processes.next_ready(index)
        if index < ready + letters:
            return self._letter(index - ready)
        return take(self._due, index - ready - letters)

    def _letter(self, index: int) -> str:
        """Delivers a message, or loses it. One that was asked for again is not lost."""
        letter = self._letters.take(index)
        if letter.is_repeat:
            return f"deliver {letter.number}"
        if self._rounds == 0 and self._chance.one_in(_LOST):
            return f"lose {letter.number}"
        if self._chance.one_in(_REPEATED):
            self._letters.repeat(letter.number)
        return f"deliver {letter.number}"

    def _failure(self) -> Optional[str]:
        """Draws whether a failure comes. What undoes it is due then."""
        if self._may_fail_node and self._chance.one_in(_FAILED):
            return self._node_failure()
        if self._may_fail_server and self._chance.one_in(_FAILED):
            return self._server_failure()
        return None

    def _node_failure(self) -> Optional[str]:
        """Declares the node of a process failed, unless it is."""
        index = self._chance.below(len(self._processes))
        if index >= len(self._processes):
            return None
        node = self._processes.node_at(index)
        if f"node {node}" in self._failed:
            return None
        self._may_fail_node = False
        self._due.append(f"restart {node}")
        return f"declare {node}"

    def _server_failure(self) -> Optional[str]:
        """Declares the server of a file that a process opens failed, unless it is."""
        index = self._chance.below(len(self._files))
        if index >= len(self._files) or f"server {self._files[index]}" in self._failed:
            return None
        self._may_fail_server = False
        self._due.append(f"start-server {self._files[index]}")
        return f"fail-server {self._files[index]}"

    def _ask_again(self) -> None:
        """Asks again for what has no answer, if a call is open: servers and nodes in turn.

        The servers come first. One that works through many requests stops where the message for
        one of them is lost: if each open call were tried again then, all others would be wasted.
        """
        if self._processes.is_any_open() and self._rounds % 2 == 1:
            self._queue += (f"resend {file}" for file in self._files)
        if not self._queue:
            self._queue += self._processes.retries()

    def _end_phase(self) -> None:
        """Settles all messages, and gives the line behind the phase its turn."""
        if self._is_over:
            return
        if not self._is_settling:
            self._queue.append("settle")
        if self._taken < len(self._lines):
            self._turn()
        else:
            self._is_over = True
        self._begin_phase()

    def _turn(self) -> None:
        """Gives a line that is no call its turn. One that settles has it with those behind it."""
        line = self._lines[self._taken].text
        self._taken += 1
        if line != "settle":
            self._queue.append(line)
            return
        while self._taken < len(self._lines) and self._lines[self._taken].text == "settle":
            self._taken += 1

    def _begin_phase(self) -> None:
        """The calls up to the next line that is no call are to be made."""
        self._rounds = 0
        while self._taken < len(self._lines):
            line = self._lines[self._taken]
            call = line.command
            if not isinstance(call, Call):
                return
            self._taken += 1
            operation = call.operation
            if operation.word == "open" and operation.operands[0] not in self._files:
                self._files.append(int(operation.operands[0]))
            self._processes.add_call(line, call)
