"""Plays lines of a script with the program, one after the other.

The program knows what nodes and servers do. What it answers to each line is all that is known
here of what the line makes.
"""

from __future__ import annotations

import subprocess
from collections.abc import Iterable, Iterator
from contextlib import contextmanager
from typing import NamedTuple, Optional

from nuvatsimo import faults, program

# So many lines of a script have room in a pipe, together.
_AT_ONCE = 256


class Made(NamedTuple):
    """An entry that a line made: its event, the call that it answers with the reply, and the
    messages that it sends."""

    event: str
    answered: Optional[str]
    reply: str
    sends: tuple[str, ...]

    def lines(self, position: int) -> Iterator[str]:
        """Yields its lines in a journal."""
        yield f"entry {position} {self.event}\n"
        if self.answered is not None:
            yield f"reply {self.answered} {self.reply}\n"
        for message in self.sends:
            yield f"send {message}\n"


class Answer(NamedTuple):
    """What a line comes to: the entries that it made, or the number of its refusal."""

    entries: list[Made]
    refused: Optional[str] = None


class Play:
    """A script that is being played. It begins with the line of its cluster."""

    def __init__(self, running: subprocess.Popen[bytes], cluster: str) -> None:
        self._running = running
        self.head = self._asked(cluster)[0]

    def take(self, line: str) -> Answer:
        """Plays a line. What is refused while messages settle is not told."""
        return _answer_of(self._asked(line))

    def take_all(self, lines: list[str]) -> Iterator[Answer]:
        """Plays lines that are known before. Some are given at once, as pipes have room for."""
        for start in range(0, len(lines), _AT_ONCE):
            given = lines[start : start + _AT_ONCE]
            self._give(given)
            for line in given:
                yield _answer_of(self._told(line))

    def _asked(self, line: str) -> list[str]:
        self._give([line])
        return self._told(line)

    def _give(self, lines: list[str]) -> None:
        sink = self._running.stdin
        assert sink is not None
        try:
            sink.write("".join(f"{line}\n" for line in lines).encode())
            sink.flush()
        except BrokenPipeError:
            raise self._ended() from None

    def _told(self, line: str) -> list[str]:
        """Returns the lines of the answer to a line. The last one says that it is the last."""
        source = self._running.stdout
        assert source is not None
        told: list[str] = []
        for printed in iter(source.readline, b""):
            told.append(printed.decode().rstrip("\n"))
            if told[-1].startswith("end ") or (told[-1][:8] == "refused " and line != "settle"):
                return told
        raise self._ended()

    def _ended(self) -> faults.Fault:
        """Returns the fault of a program that ended too early. It told the reason itself."""
        status = self._running.wait()
        return faults.Fault(status if status > 0 else faults.TOO_MUCH)


@contextmanager
def playing(cluster: str) -> Iterator[Play]:
    """Starts a script with the line of its cluster."""
    with program.talk(["play"]) as running:
        yield Play(running, cluster)


def state_behind(head: str, entries: Iterable[Made]) -> list[str]:
    """Asks the program for the state behind these entries, below this head of a journal."""
    lines = [f"{head}\n"]
    position = 0
    for position, entry in enumerate(entries, 1):
        lines.extend(entry.lines(position))
    lines.append(f"end {position}\n")
    answer = program.ask(["state", "-"], "".join(lines).encode())
    return program.checked(answer).splitlines()


def _answer_of(told: list[str]) -> Answer:
    if told[-1].startswith("refused "):
        return Answer([], told[-1].partition(" ")[2])
    return Answer(list(_entries_of(told[:-1])))


def _entries_of(lines: list[str]) -> Iterator[Made]:
    """Yields the entries that lines of a journal write."""
    entry: Optional[Made] = None
    for line in lines:
        word, _, rest = line.partition(" ")
        if word == "entry":
            if entry is not None:
                yield entry
            entry = Made(rest.partition(" ")[2], None, "", ())
        elif word == "reply" and entry is not None:
            call, _, reply = rest.partition(" ")
            entry = entry._replace(answered=call, reply=reply)
        elif word == "send" and entry is not None:
            entry = entry._replace(sends=(*entry.sends, rest))
    if entry is not None:
        yield entry
