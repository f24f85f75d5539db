"""Asks the program what the events of a journal make, by playing them as lines of a script."""

from __future__ import annotations

import subprocess
import tempfile
from collections.abc import Iterable, Iterator
from contextlib import contextmanager
from typing import BinaryIO, NamedTuple, Optional, TextIO

from nuvatsimo import faults, program
from nuvatsimo.journal import Entry, Head, Source
from nuvatsimo.scripts import ClusterShape

_NO_MEMORY = 3

# The place of the epoch in a message, by its first word. Messages of version 1 have none.
_EPOCH_AT = {"grant": 2, "revoke": 2, "taken": 2, "released": 2, "conflict": 2, "deny": 4}


class Answer(NamedTuple):
    """What the program answers to a line: the lines of the entry that it made, or a code."""

    lines: list[str]
    code: Optional[int] = None


def played_to(source: Source, position: int) -> tuple[Entry, Optional[Answer]]:
    """Plays the events of a journal up to the one at a position. Those before it are a run.

    Returns the entry there, and what its event makes. That may not be known of a journal of
    version 1, as the program plays version 2 alone.
    """
    with tempfile.TemporaryFile() as script:
        entry = _write_script(script, source, position)
        script.seek(0)
        with _playing(script) as lines:
            answers = _answers_of(lines)
            if source.head.version == 1:
                return entry, _answer_of_version_1(source.head, answers)
            return entry, _last_of(answers)


@contextmanager
def _playing(script: BinaryIO) -> Iterator[Iterable[str]]:
    """Starts the program on a script, and goes through the lines that it prints."""
    words = [program.path(), "play"]
    with subprocess.Popen(words, stdin=script, stdout=subprocess.PIPE, encoding="utf-8") as it:
        try:
            yield it.stdout or ()
        except BaseException:
            it.kill()
            raise
    if it.returncode:
        raise faults.Fault(it.returncode if it.returncode > 0 else faults.TOO_MUCH)


def _answers_of(lines: Iterable[str]) -> Iterator[Answer]:
    """Goes through the answers: the lines of an entry up to `end K`, or `refused CODE`.

    The answer to the line of the cluster, which makes no entry, is left out.
    """
    made: list[str] = []
    for line in lines:
        if line.startswith("end "):
            if made:
                yield Answer(made)
            made = []
        elif line.startswith("refused "):
            yield Answer([], int(line[len("refused ") :]))
            made = []
        elif not line.startswith("journal "):
            made.append(line[:-1])


def _last_of(answers: Iterator[Answer]) -> Answer:
    """Returns the last answer."""
    last = Answer([], _NO_MEMORY)
    for last in answers:
        pass
    if last.code == _NO_MEMORY:
        raise faults.no_memory()
    return last


def _answer_of_version_1(head: Head, answers: Iterator[Answer]) -> Optional[Answer]:
    """Returns the last answer as version 1 spells it, where an audit finds that it is one of it.

    The two versions differ in how many regions an owner may have, and in the texts of messages.
    """
    with tempfile.NamedTemporaryFile("w", prefix="nuvatsimo-", suffix=".journal") as copy:
        first = f"journal 1 nodes {head.nodes} files {head.files} policy {head.policy}"
        copy.write(f"{first}\n")
        last = _last_of(_copied(copy, answers))
        copy.flush()
        is_so = program.ask(["audit", copy.name]).status == faults.DONE
    return last if is_so else None


def _copied(copy: TextIO, answers: Iterator[Answer]) -> Iterator[Answer]:
    """Writes the entries of answers to a journal of version 1, and goes through the answers."""
    count = 0
    for answer in answers:
        spelled = [_without_epoch(line) for line in answer.lines]
        copy.writelines(f"{line}\n" for line in spelled)
        count += answer.code is None
        yield Answer(spelled, answer.code)
    copy.write(f"end {count}\n")


def _without_epoch(line: str) -> str:
    """Writes a line of a journal of version 2 as version 1 spells it."""
    words = line.split(" ")
    front = 3 if words[0] == "entry" and words[2] == "deliver" else 1
    if words[0] == "send" or front == 3:
        at = _EPOCH_AT.get(words[front])
        if at:
            del words[front + at]
    return " ".join(words)


def _write_script(script: BinaryIO, source: Source, position: int) -> Entry:
    """Writes the events up to a position as a script, and returns the entry there."""
    head = source.head
    numbers = _Numbers()
    script.write(f"{ClusterShape(head.nodes, head.files, head.policy).text}\n".encode())
    for entry in source.entries(is_audited=True):
        script.write(f"{_line_of(entry, numbers)}\n".encode())
        if entry.position == position:
            return entry
        numbers.add(entry.sends)
    raise faults.line(faults.TOO_MUCH, f"the program named entry {position}, which is not there")


class _Numbers:
    """The numbers of messages in the order of sending."""

    def __init__(self) -> None:
        self._first: dict[str, int] = {}
        self._count = 0

    def add(self, messages: list[str]) -> None:
        """Takes messages that are sent next."""
        for message in messages:
            self._count += 1
            self._first.setdefault(message, self._count)

    def of(self, message: str) -> int:
        """Returns the number of a message. Of one that was not sent it is that of no message."""
        return self._first.get(message, self._count + 1)


def _line_of(entry: Entry, numbers: _Numbers) -> str:
    """Returns the line of a script that asks for the event of an entry."""
    if entry.comes:
        return f"deliver {numbers.of(entry.comes)}"
    kind, *words = entry.event.split(" ")
    if kind == "learn":
        file, host = words
        return " ".join((kind, file, *host.split(".")))
    return " ".join((kind, words[0].partition(".")[0], *words[1:]))
