"""Reads journals, entry by entry, in one pass.

`opened` makes a journal ready: also one that comes from standard input or a pipe, which the
program and a tool both read. `Source.entries` refuses a text that is no journal by its first
bad line, as the program does.
"""

from __future__ import annotations

import os
import stat
import sys
from collections.abc import Iterator
from contextlib import contextmanager
from dataclasses import dataclass
from typing import Optional

from nuvatsimo import faults, program
from nuvatsimo.journal_lines import LineRules
from nuvatsimo.progress import Progress

MOST_ENTRIES = 1048576
_STEP = 4096


@dataclass(frozen=True)
class Head:
    """The first line of a journal."""

    version: int
    nodes: int
    files: int
    policy: str


class Entry:
    """An entry: its place, its event, the call that it answers with the reply, what it sends.

    All of them are text. `event` is as `call 1.1.3 1 set 0 proc write 0 100`, a reply as
    `again write 0 99 p1@2.1`, a message as `grant 1 1 1 1.1.3 write 0 9`. `line` is the number
    of its first line.
    """

    __slots__ = ("position", "line", "event", "answered", "reply", "sends")

    def __init__(self, position: int, line: int, event: str) -> None:
        self.position = position
        self.line = line
        self.event = event
        self.answered: Optional[str] = None
        self.reply: Optional[str] = None
        self.sends: list[str] = []

    @property
    def kind(self) -> str:
        """The first word of the event."""
        return self.event.partition(" ")[0]

    @property
    def made(self) -> Optional[str]:
        """The call that the entry makes, or None."""
        return self.event.split(" ", 2)[1] if self.event.startswith("call ") else None

    @property
    def comes(self) -> Optional[str]:
        """The message that comes, or None."""
        return self.event[8:] if self.event.startswith("deliver ") else None


class Source:
    """A journal that can be read more than once. `path` is a file that the program can read."""

    def __init__(self, name: str, path: str) -> None:
        self.name = name
        self.path = path
        self._head: Optional[Head] = None

    @property
    def head(self) -> Head:
        """The first line."""
        if self._head is None:
            with self._lines() as lines:
                self._head = _head_of(next(lines, ""))
            if self._head is None:
                raise self.refused(1)
        return self._head

    def audit(self) -> None:
        """Asks the program to audit it. One that is none of a run ends the command."""
        with self._named():
            program.audit(self.path)

    def history(self) -> dict[str, int]:
        """Asks the program for the entry at which the history has each call. It audits too."""
        with self._named():
            return program.history(self.path)

    def state(self, at: Optional[int] = None) -> list[str]:
        """Asks the program for the lines of `state`, behind entry `at`. It audits too."""
        with self._named():
            return program.state(self.path, at)

    def entries(self, is_audited: bool = False) -> Iterator[Entry]:
        """Yields each entry. The lines of a journal that was audited are not checked again."""
        head = self.head
        with self._lines() as lines, Progress("reading", os.path.getsize(self.path)) as progress:
            next(lines)
            checked = lines if is_audited else self._checked(head, lines)
            yield from entries_of(checked, progress if progress.is_on else None)

    def refused(self, number: int) -> faults.Fault:
        """Returns the fault of a bad line, or that the text is no UTF-8, which comes first."""
        try:
            with open(self.path, "rb") as file:
                place = faults.place_of_bad_byte(file.read())
        except OSError as error:
            return faults.cannot_read(self.name, faults.reason_of(error))
        return faults.cannot_read(self.name, place) if place else faults.bad_line(number)

    def _checked(self, head: Head, lines: Iterator[str]) -> Iterator[str]:
        """Yields each line that may stand where it does, and refuses the first other one."""
        rules = LineRules(head.version)
        number = 1
        for line in lines:
            number += 1
            if not rules.takes(line):
                raise self.refused(number)
            yield line
        if not rules.is_ended:
            raise self.refused(number + 1)
        if rules.position > MOST_ENTRIES:
            raise faults.journal_full()

    @contextmanager
    def _lines(self) -> Iterator[Iterator[str]]:
        """Opens the file. A byte that is no ASCII makes a character that no line has."""
        try:
            file = open(self.path, encoding="latin-1", newline="\n")
        except OSError as error:
            raise faults.cannot_read(self.name, faults.reason_of(error)) from None
        with file:
            yield iter(file)

    @contextmanager
    def _named(self) -> Iterator[None]:
        """Tells of a file that the program can't read why that is, by its own name."""
        try:
            yield
        except faults.Fault as fault:
            if fault.error.startswith("cannot read "):
                raise self.refused(0) from None
            raise


@contextmanager
def opened(name: str) -> Iterator[Source]:
    """Makes the journal of a name ready to be read; `-` is standard input."""
    if name != "-":
        try:
            if stat.S_ISREG(os.stat(name).st_mode):
                yield Source(name, name)
                return
        except (OSError, ValueError) as error:
            reason = faults.reason_of(error) if isinstance(error, OSError) else _BAD_NAME
            raise faults.cannot_read(name, reason) from None
    import shutil
    import tempfile

    with tempfile.NamedTemporaryFile(prefix="nuvatsimo-", suffix=".journal") as copy:
        try:
            with sys.stdin.buffer if name == "-" else open(name, "rb") as file:
                shutil.copyfileobj(file, copy)
        except (OSError, AttributeError) as error:
            reason = faults.reason_of(error) if isinstance(error, OSError) else "no such file"
            raise faults.cannot_read(name, reason) from None
        copy.flush()
        yield Source(name, copy.name)


_BAD_NAME = "no file may have this name"


def _head_of(line: str) -> Optional[Head]:
    if not LineRules.HEAD.fullmatch(line):
        return None
    words = line.split()
    return Head(int(words[1]), int(words[3]), int(words[5]), words[7])


def entries_of(lines: Iterator[str], progress: Optional[Progress] = None) -> Iterator[Entry]:
    """Yields the entries of lines behind the first one of a journal."""
    entry: Optional[Entry] = None
    position = 0
    number = 1
    done = 0
    for line in lines:
        number += 1
        kind = line[0]
        if kind == "s" and entry is not None:
            entry.sends.append(line[5:-1])
        elif kind == "r" and entry is not None:
            _, entry.answered, entry.reply = line[:-1].split(" ", 2)
        else:
            if entry is not None:
                yield entry
            if line.startswith("end "):
                entry = None
                continue
            position += 1
            entry = Entry(position, number, line[:-1].split(" ", 2)[2])
        if progress is not None:
            done += len(line)
            if not number % _STEP:
                progress.at(done)
