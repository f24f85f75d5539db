"""What a recording tells of processes, and what it leaves out."""

from __future__ import annotations

from typing import Callable, NamedTuple, Optional, Union


class LockCall(NamedTuple):
    """A lock call: the bytes from `start` on, `length` of them, or all where that is 0.

    The wish is `set`, `wait`, `unlock` or `query`; the mode is `read` or `write`, and None where
    the wish is `unlock`. A lock is one of the open file description, or else of the process.
    """

    is_of_description: bool
    wish: str
    mode: Optional[str]
    start: int
    length: int


class Nothing(NamedTuple):
    """Nothing that matters to a script."""


class Opens(NamedTuple):
    """It opens a file, and gets a descriptor. The access is `r`, `w` or `rw`."""

    fd: int
    path: str
    access: str


class Refers(NamedTuple):
    """It has a descriptor of this file. Its open need not be recorded."""

    fd: int
    path: str


class Duplicates(NamedTuple):
    """The descriptor `to` gets to refer to what `fd` refers to."""

    fd: int
    to: int


class Closes(NamedTuple):
    """A descriptor goes."""

    fd: int


class ClosesRange(NamedTuple):
    """Each descriptor from the first number to the last goes."""

    first: int
    last: int


class Executes(NamedTuple):
    """It runs another program, of this name if the name is understood."""

    program: Optional[str]


class Forks(NamedTuple):
    """It makes a process. The two may share their descriptors."""

    child: int
    shares: bool


class StartsThread(NamedTuple):
    """It makes a thread, which shares its descriptors and its locks."""

    thread: int


class Exits(NamedTuple):
    """It exits. With `whole` its process does, with all threads."""

    whole: bool


class Asks(NamedTuple):
    """It makes a lock call. The answer is as a reply of a script says it, if one does."""

    fd: int
    asked: LockCall
    answer: Optional[str]


class Returns(NamedTuple):
    """A lock call through the descriptor returned."""

    fd: int


class GivesUp(NamedTuple):
    """A wait through the descriptor ended without its lock."""

    fd: int


class Unserved(NamedTuple):
    """Something is left out, for this reason."""

    reason: str


Happening = Union[
    Nothing, Opens, Refers, Duplicates, Closes, ClosesRange, Executes, Forks, StartsThread, Exits,
    Asks, Returns, GivesUp, Unserved,
]  # fmt: skip

NOTHING = Nothing()


class Step(NamedTuple):
    """What happens to a process or thread, in a line of the recording.

    `begin` is the line where the call began by which it happens.
    """

    line: int
    pid: int
    happening: Happening
    begin: int


# By the kind of a happening the word in the name of the method that takes it, as `_take_open`.
_TAKEN_BY = {
    Nothing: "nothing",
    Opens: "open",
    Refers: "refers",
    Duplicates: "duplicate",
    Closes: "close",
    ClosesRange: "close_range",
    Executes: "execute",
    Forks: "fork",
    StartsThread: "thread",
    Exits: "exit",
    Asks: "ask",
    Returns: "return",
    GivesUp: "return",
    Unserved: "unserved",
}


def takers_of(one: object) -> dict[type, Callable[..., None]]:
    """Returns the methods by which an object takes happenings, by the kinds that it takes."""
    methods = {kind: getattr(one, f"_take_{word}", None) for kind, word in _TAKEN_BY.items()}
    return {kind: method for kind, method in methods.items() if method is not None}


class SystemCall(NamedTuple):
    """How a call passed: its texts, and the lines where it began and returned.

    `arguments` stand in the line where it began, `more` where it was resumed. Of a process that
    is gone `gave` tells how. An event without a call has no texts.
    """

    name: str
    arguments: str
    more: str
    gave: str
    begin: int
    end: Optional[int]


class Event:
    """What happens to a process or thread, in a line. An open one may still change."""

    __slots__ = ("line", "pid", "happening", "passed", "is_open")

    def __init__(self, line: int, pid: int, happening: Happening, passed: SystemCall) -> None:
        self.line = line
        self.pid = pid
        self.happening = happening
        self.passed = passed
        self.is_open = False


NOT_UNDERSTOOD = "the line is not understood"
NO_PROCESS = "no PID stands before the call; strace -f -o FILE writes one"
NOT_BEGUN = "the start of the resumed call is not recorded"
WHENCE = "l_whence is not SEEK_SET"
RELATIVE = "the path is relative to a descriptor"
EXECUTES = "descriptors that close where a program is executed stay open here"
SHARES_DESCRIPTORS = "the child shares the descriptors of its parent, and has its own here"
NOT_OPEN = "no open of the descriptor is recorded"
TOO_MANY_FILES = "256 other files have locks"
TOO_MANY_PROCESSES = "the node has 256 other processes"
TOO_MANY_DESCRIPTORS = (
    "the process had 64 other descriptors when it got this one, or the one that it is a copy of"
)
LEFT_OUT = "the process is left out"
NO_END = "the end of the call that makes a process is not recorded"


class Notes:
    """What is left out, by lines of the recording. The first hundred are told, the rest counted."""

    MOST = 100

    def __init__(self) -> None:
        self._told: list[str] = []
        self._count = 0

    def add(self, line: int, reason: str) -> None:
        """Takes note that something in this line is left out."""
        self._count += 1
        if self._count <= self.MOST:
            self._told.append(f"line {line}: {reason}\n")

    def text(self) -> str:
        """Returns the notes, a line each."""
        others = self._count - self.MOST
        return "".join(self._told) + (f"more notes: {others}\n" if others > 0 else "")
