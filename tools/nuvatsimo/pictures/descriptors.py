"""What the descriptors of processes refer to, by the calls and replies of a journal."""

from __future__ import annotations

import heapq

from nuvatsimo.pictures.calls import Call

# A file, and an owner of locks in it.
Place = tuple[int, str]


class Descriptors:
    """The descriptors of the processes of one host, and their open file descriptions."""

    def __init__(self, host: str) -> None:
        self._host = host
        self._processes: dict[str, dict[str, int]] = {}
        self._files: dict[int, int] = {}
        self._uses: dict[int, int] = {}
        self._freed: list[int] = []

    def place(self, call: Call) -> Place:
        """Returns the file and the owner of a lock call, as `set 0 proc write 0 100`."""
        _, descriptor, kind, _ = call.operation.split(" ", 3)
        number = self._processes[call.pid][descriptor]
        owner = f"p{call.pid}" if kind == "proc" else f"d{number}"
        return self._files[number], f"{owner}@{self._host}"

    def users(self, number: int) -> list[str]:
        """Returns the processes that have a descriptor of an open file description."""
        return [pid for pid, of_it in self._processes.items() if number in of_it.values()]

    def take(self, call: Call) -> list[Place]:
        """Takes a call with its reply. Returns the places whose locks go by it."""
        words = call.operation.split(" ")
        if words[0] == "open" and call.reply is not None and call.reply.startswith("fd "):
            self._open(call.pid, call.reply[3:], int(words[1]))
        elif words[0] == "dup" and call.reply is not None and call.reply.startswith("fd "):
            of_process = self._processes[call.pid]
            self._refer(of_process, call.reply[3:], of_process[words[1]])
        elif call.reply == "done":
            return self._done(call.pid, words)
        return []

    def _done(self, pid: str, words: list[str]) -> list[Place]:
        if words[0] == "spawn":
            self._processes[pid] = {}
        elif words[0] == "fork":
            child: dict[str, int] = {}
            for descriptor, number in self._processes[pid].items():
                self._refer(child, descriptor, number)
            self._processes[words[1]] = child
        elif words[0] == "close":
            return self._close(pid, words[1])
        elif words[0] == "exit":
            open_ones = list(self._processes[pid])
            gone = [place for descriptor in open_ones for place in self._close(pid, descriptor)]
            del self._processes[pid]
            return gone
        return []

    def _open(self, pid: str, descriptor: str, file: int) -> None:
        """A new description has the lowest number that no other of the node has."""
        number = heapq.heappop(self._freed) if self._freed else len(self._files) + 1
        self._files[number] = file
        self._refer(self._processes[pid], descriptor, number)

    def _refer(self, of_process: dict[str, int], descriptor: str, number: int) -> None:
        of_process[descriptor] = number
        self._uses[number] = self._uses.get(number, 0) + 1

    def _close(self, pid: str, descriptor: str) -> list[Place]:
        number = self._processes[pid].pop(descriptor)
        file = self._files[number]
        gone = [(file, f"p{pid}@{self._host}")]
        self._uses[number] -= 1
        if not self._uses[number]:
            del self._files[number], self._uses[number]
            heapq.heappush(self._freed, number)
            gone.append((file, f"d{number}@{self._host}"))
        return gone
