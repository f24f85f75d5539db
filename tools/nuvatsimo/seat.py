"""Drives `lockreplay seat` from Python: a node or a token server, each a process of its own.

It is meant as an oracle in the tests of other programs, and needs nothing but Python 3.9:

    with Cluster(nodes=2, files=1, program="/path/of/lockreplay") as cluster:
        cluster.call(1, 1, "spawn")                                 # -> "done"
        cluster.call(1, 1, "open 1 rw")                             # -> "fd 0"
        cluster.call(1, 1, "set 0 proc write 0 100")                # -> "done"

A `Seat` alone is for who carries the messages: each that it sends is for the actor beside it.
"""

from __future__ import annotations

import subprocess
from collections import deque
from dataclasses import dataclass, field
from typing import Optional


class Refused(Exception):
    """A seat refuses a line, and nothing changed. The code is as of `lockreplay run`."""

    def __init__(self, line: str, code: str) -> None:
        super().__init__(f"refused {code}: {line}")
        self.code = int(code.split(" ")[0])


@dataclass
class Block:
    """What a seat answers to a line: entries, replies by calls, and messages with their takers."""

    entries: list[str] = field(default_factory=list)
    members: list[str] = field(default_factory=list)
    replies: dict[str, str] = field(default_factory=dict)
    sends: list[tuple[str, str]] = field(default_factory=list)

    @property
    def call(self) -> Optional[str]:
        """The name of the call that the block makes, as `1.1.3`, or None."""
        words = self.entries[0].split(" ") if self.entries else [""]
        return words[1] if words[0] == "call" else None

    def take(self, line: str) -> None:
        """Takes a line."""
        word, _, rest = line.partition(" ")
        if word == "entry":
            self.entries.append(rest.partition(" ")[2])
        elif word == "member":
            self.members.append(rest)
        elif word == "reply":
            call, _, reply = rest.partition(" ")
            self.replies[call] = reply
        elif word == "to":
            kind, number, message = rest.split(" ", 2)
            self.sends.append((f"{kind} {number}", message))


class Seat:
    """One actor, as `node 1` or `server 1`."""

    def __init__(self, program: str, actor: str, *options: str) -> None:
        self.actor = actor
        words = [program, "seat", *options, *actor.split(" ")]
        pipe = subprocess.PIPE
        self._process = subprocess.Popen(words, stdin=pipe, stdout=pipe, encoding="ascii")
        self.start = self._block("its start")

    def call(self, process: int, operation: str) -> Block:
        """A process of the node calls, as `set 0 proc write 0 100`."""
        return self.ask(f"call {self.actor[5:]} {process} {operation}")

    def deliver(self, message: str) -> Block:
        """A message comes to the actor."""
        return self.ask(f"deliver {message}")

    def interrupt(self, process: int) -> Block:
        """The open wait of a process of the node ends without its lock."""
        return self.ask(f"interrupt {self.actor[5:]} {process}")

    def tick(self) -> Block:
        """The actor tries again what is due."""
        return self.ask("tick")

    def ask(self, line: str) -> Block:
        """Writes a line, and returns the block that answers it."""
        assert self._process.stdin is not None
        self._process.stdin.write(f"{line}\n")
        self._process.stdin.flush()
        return self._block(line)

    def close(self) -> None:
        """Ends the process."""
        self._process.communicate()

    def _block(self, asked: str) -> Block:
        assert self._process.stdout is not None
        block = Block()
        for line in self._process.stdout:
            if line.startswith("end "):
                return block
            if line.startswith("refused "):
                raise Refused(asked, line[8:-1])
            block.take(line[:-1])
        raise EOFError(f"{self.actor} ended with status {self._process.wait()}")


class Cluster:
    """A cluster of seats. Messages come in the order in which they are sent.

    `replies` has the replies so far, by the names of calls.
    """

    def __init__(
        self, nodes: int, files: int, policy: str = "wide", program: str = "lockreplay"
    ) -> None:
        options = ["--nodes", str(nodes), "--files", str(files), "--policy", policy]
        actors = [f"node {node}" for node in range(1, nodes + 1)]
        actors += [f"server {file}" for file in range(1, files + 1)]
        self.seats: dict[str, Seat] = {}
        self.replies: dict[str, str] = {}
        self._sent: deque[tuple[str, str]] = deque()
        for actor in actors:
            self.seats[actor] = Seat(program, actor, *options)

    def __enter__(self) -> Cluster:
        return self

    def __exit__(self, *_: object) -> None:
        self.close()

    def call(self, node: int, process: int, operation: str) -> Optional[str]:
        """A process calls, and all messages come. Returns the reply, or None while it is open."""
        block = self.seats[f"node {node}"].call(process, operation)
        self._take(block)
        self.settle()
        return self.replies.get(block.call or "")

    def settle(self) -> None:
        """Delivers all messages, also those that are sent meanwhile."""
        while self._sent:
            actor, message = self._sent.popleft()
            self._take(self.seats[actor].deliver(message))

    def tick(self) -> None:
        """Each actor tries again what is due, and all messages come."""
        for seat in self.seats.values():
            self._take(seat.tick())
        self.settle()

    def close(self) -> None:
        """Ends the seats."""
        for seat in self.seats.values():
            seat.close()

    def _take(self, block: Block) -> None:
        self.replies.update(block.replies)
        self._sent.extend(block.sends)
