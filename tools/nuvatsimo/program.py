"""Asks the lockreplay program, which the variable LOCKREPLAY_PROGRAM names.

It is the one that knows what holds behind an entry: the tools have no model of nodes.
"""

from __future__ import annotations

import os
import subprocess
import sys
from collections.abc import Iterator
from contextlib import contextmanager
from dataclasses import dataclass
from typing import Optional

from nuvatsimo import faults

VARIABLE = "LOCKREPLAY_PROGRAM"


@dataclass(frozen=True)
class Answer:
    """What the program printed, and its exit status."""

    status: int
    output: str
    error: str


def path() -> str:
    """Returns the path of the program."""
    found = os.environ.get(VARIABLE)
    if not found:
        raise faults.line(faults.WORDS_REFUSED, f"{VARIABLE} names no program")
    return found


def ask(words: list[str], given: Optional[bytes] = None) -> Answer:
    """Runs the program to its end. Without `given` its standard input is empty."""
    source = {"stdin": subprocess.DEVNULL} if given is None else {"input": given}
    try:
        ran = subprocess.run([path(), *words], capture_output=True, check=False, **source)
    except OSError as error:
        raise _cannot_run(error) from None
    return Answer(ran.returncode, _text(ran.stdout), _text(ran.stderr))


def ask_beside(words: list[str]) -> Answer:
    """Runs the program on our standard input. On a terminal it tells its progress itself."""
    error = None if sys.stderr is not None and sys.stderr.isatty() else subprocess.PIPE
    try:
        ran = subprocess.run([path(), *words], stdout=subprocess.PIPE, stderr=error, check=False)
    except OSError as fault:
        raise _cannot_run(fault) from None
    return Answer(ran.returncode, _text(ran.stdout), _text(ran.stderr or b""))


@contextmanager
def talk(words: list[str]) -> Iterator[subprocess.Popen[bytes]]:
    """Starts the program with pipes to its standard input and output, and ends it behind."""
    try:
        running = subprocess.Popen(
            [path(), *words], stdin=subprocess.PIPE, stdout=subprocess.PIPE, bufsize=1 << 16
        )
    except OSError as error:
        raise _cannot_run(error) from None
    try:
        yield running
    finally:
        if running.poll() is None:
            running.kill()
        running.wait()
        for pipe in (running.stdin, running.stdout):
            if pipe is not None:
                pipe.close()


def hand_on(words: list[str]) -> int:
    """Runs the program on the streams of this process, and returns its exit status."""
    try:
        return subprocess.run([path(), *words], check=False).returncode
    except OSError as error:
        raise _cannot_run(error) from None


def checked(answer: Answer) -> str:
    """Returns what was printed. Another status than 0 ends the command in the same way."""
    if answer.status < 0:
        raise faults.line(faults.TOO_MUCH, f"the program was ended by signal {-answer.status}")
    if answer.status:
        raise faults.Fault(answer.status, answer.error, answer.output)
    return answer.output


def audit(journal: str) -> None:
    """Audits a journal. One that is none of a run ends the command as `audit` does."""
    checked(ask(["audit", journal]))


def history(journal: str) -> dict[str, int]:
    """Returns the entry at which the history has each call, by its name. It audits first."""
    places = {}
    for line in checked(ask(["history", journal])).splitlines():
        words = line.split(None, 2)
        if len(words) == 3 and words[1] != "gone":
            places[words[1]] = int(words[0])
    return places


def state(journal: str, at: Optional[int] = None) -> list[str]:
    """Returns the lines that `state` prints: behind entry `at`, or at the end. It audits first."""
    words = ["state", journal] + ([] if at is None else ["--at", str(at)])
    return checked(ask(words)).splitlines()


def _cannot_run(error: OSError) -> faults.Fault:
    name = os.environ.get(VARIABLE, "")
    return faults.line(faults.WORDS_REFUSED, f"cannot run {name}: {faults.reason_of(error)}")


def _text(printed: bytes) -> str:
    return printed.decode("utf-8", "surrogateescape")
