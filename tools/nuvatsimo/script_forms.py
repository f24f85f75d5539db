"""The grammar of the lines of lock scripts, as tables: which word may stand at which place."""

from __future__ import annotations

from dataclasses import dataclass
from typing import Mapping, Optional, Sequence, Union

Value = Union[int, str]

LEAST_OFFSET = -(2**63)
GREATEST_OFFSET = 2**63 - 1
MOST_NODES = 64
MOST_PROCESSES = 256
MOST_FILES = 256
MOST_INCARNATIONS = 65535
MOST_MESSAGES = 2**32 - 1
_MOST_DIGITS = 20


def natural_of(word: str) -> Optional[int]:
    """Returns the number that a word writes without leading zeros, or None."""
    if not (word.isascii() and word.isdigit()) or len(word) > _MOST_DIGITS:
        return None
    return None if word[0] == "0" and word != "0" else int(word)


def offset_of(word: str) -> Optional[int]:
    """Returns the offset of 64 bits that a word writes, or None. It may begin with `-`."""
    natural = natural_of(word[1:] if word[:1] == "-" else word)
    if natural is None or word == "-0":
        return None
    offset = -natural if word[0] == "-" else natural
    return offset if LEAST_OFFSET <= offset <= GREATEST_OFFSET else None


@dataclass(frozen=True)
class Number:
    """A place of a number, with what it numbers, the least and the greatest."""

    name: str
    least: int
    greatest: int

    def value(self, word: str) -> Optional[int]:
        """Returns what a word says at this place, or None where it may not stand there."""
        number = natural_of(word)
        return number if number is not None and self.least <= number <= self.greatest else None

    def behind(self, word: str) -> Sequence[Place]:
        """Returns the places behind a word that stands here."""
        return ()

    def told(self) -> str:
        """Says what is expected here."""
        return f"{self.name} from {self.least} to {self.greatest}"


@dataclass(frozen=True)
class Offset:
    """A place of a number of 64 bits that may be negative."""

    name: str

    def value(self, word: str) -> Optional[int]:
        """Returns what a word says at this place, or None where it may not stand there."""
        return offset_of(word)

    def behind(self, word: str) -> Sequence[Place]:
        """Returns the places behind a word that stands here."""
        return ()

    def told(self) -> str:
        """Says what is expected here."""
        return f"{self.name} from {LEAST_OFFSET} to {GREATEST_OFFSET}"


@dataclass(frozen=True)
class Choice:
    """A place of one of a few words, each with the places behind it."""

    name: str
    forms: Mapping[str, Sequence[Place]]

    def value(self, word: str) -> Optional[str]:
        """Returns what a word says at this place, or None where it may not stand there."""
        return word if word in self.forms else None

    def behind(self, word: str) -> Sequence[Place]:
        """Returns the places behind a word that stands here."""
        return self.forms[word]

    def told(self) -> str:
        """Says what is expected here."""
        return self.name


@dataclass(frozen=True)
class Fixed:
    """A place of just one word."""

    word: str

    def value(self, word: str) -> Optional[str]:
        """Returns what a word says at this place, or None where it may not stand there."""
        return word if word == self.word else None

    def behind(self, word: str) -> Sequence[Place]:
        """Returns the places behind a word that stands here."""
        return ()

    def told(self) -> str:
        """Says what is expected here."""
        return f'"{self.word}"'


Place = Union[Number, Offset, Choice, Fixed]


def _words(name: str, *words: str) -> Choice:
    return Choice(name, {word: () for word in words})


_NODE = Number("a node", 1, MOST_NODES)
_PROCESS = Number("a process", 1, MOST_PROCESSES)
_FILE = Number("a file", 1, MOST_FILES)
_INCARNATION = Number("an incarnation", 1, MOST_INCARNATIONS)
_MESSAGE = Number("a message", 1, MOST_MESSAGES)
_DESCRIPTOR = Number("a descriptor", 0, 255)
_START = Offset("a start")
LENGTH = Offset("a length")

POLICY = _words('"wide" or "exact"', "wide", "exact")
KIND = _words('"proc" or "desc"', "proc", "desc")
MODE = _words('"read" or "write"', "read", "write")
ACCESS = _words('"r", "w" or "rw"', "r", "w", "rw")

_ASKED_LOCK = (_DESCRIPTOR, KIND, MODE, _START, LENGTH)

OPERATION = Choice(
    "an operation",
    {
        "spawn": (),
        "fork": (_PROCESS,),
        "open": (_FILE, ACCESS),
        "dup": (_DESCRIPTOR,),
        "close": (_DESCRIPTOR,),
        "exit": (),
        "set": _ASKED_LOCK,
        "wait": _ASKED_LOCK,
        "unlock": (_DESCRIPTOR, KIND, _START, LENGTH),
        "query": _ASKED_LOCK,
    },
)

COMMAND = Choice(
    "a command",
    {
        "call": (_NODE, _PROCESS, OPERATION),
        "deliver": (_MESSAGE,),
        "lose": (_MESSAGE,),
        "settle": (),
        "interrupt": (_NODE, _PROCESS),
        "retry": (_NODE, _PROCESS),
        "resend": (_FILE,),
        "declare": (_NODE,),
        "restart": (_NODE,),
        "learn": (_FILE, _NODE, _INCARNATION),
        "fail-server": (_FILE,),
        "start-server": (_FILE,),
    },
)

CLUSTER_LINE = Choice(
    "the cluster line",
    {
        "cluster": (
            Fixed("nodes"),
            Number("a number of nodes", 1, MOST_NODES),
            Fixed("files"),
            Number("a number of files", 1, MOST_FILES),
            Fixed("policy"),
            POLICY,
        )
    },
)


def walk(first: Place, words: Sequence[str]) -> tuple[list[Value], Optional[Place]]:
    """Reads the words of a line from the place of the first one on.

    Returns what the words say, up to the first one that may not stand where it does, and the
    place where this happens, or where a word is missing. The place is None where all the words
    are good, or where a good line ends before the words do.
    """
    left = [first]
    values: list[Value] = []
    for word in words:
        if not left:
            return values, None
        value = left[-1].value(word)
        if value is None:
            return values, left[-1]
        left.extend(reversed(left.pop().behind(word)))
        values.append(value)
    return values, left[-1] if left else None


def values_of(first: Place, line: str) -> Optional[list[Value]]:
    """Returns what the words of a whole line say, or None where the line is bad."""
    words = line.split(" ")
    values, place = walk(first, words)
    return values if place is None and len(values) == len(words) else None
