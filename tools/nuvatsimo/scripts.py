"""The reader of lock scripts. It accepts a text exactly where the program does."""

from __future__ import annotations

from dataclasses import dataclass
from typing import Iterator, NamedTuple, Optional, Union

from nuvatsimo import faults
from nuvatsimo.script_forms import CLUSTER_LINE, COMMAND, Value, values_of

EXPECT = "# expect "
GREATEST_LINE = 2**32 - 1
_FOR_THREADS = ("call", "settle", "declare", "restart", "fail-server", "start-server")


class ClusterShape(NamedTuple):
    """How many nodes and files a cluster has, and its policy: `wide` or `exact`."""

    nodes: int
    files: int
    policy: str

    @property
    def text(self) -> str:
        """The cluster line of a script."""
        return f"cluster nodes {self.nodes} files {self.files} policy {self.policy}"


class Operation(NamedTuple):
    """What a process calls: a word as `set`, and its operands as they stand behind it."""

    word: str
    operands: tuple[Value, ...]

    @property
    def text(self) -> str:
        """The operation as a script writes it."""
        return " ".join((self.word, *map(str, self.operands)))


@dataclass(frozen=True)
class Call:
    """A process of a node makes a call."""

    node: int
    process: int
    operation: Operation


@dataclass(frozen=True)
class Deliver:
    """A message arrives. Its number counts messages in the order of sending, from 1."""

    message: int


@dataclass(frozen=True)
class Lose:
    """A message is lost."""

    message: int


@dataclass(frozen=True)
class Settle:
    """All messages are delivered, also those that are sent meanwhile."""


@dataclass(frozen=True)
class Interrupt:
    """The open wait of a process is interrupted."""

    node: int
    process: int


@dataclass(frozen=True)
class Retry:
    """A node sends the request of the open call of a process again."""

    node: int
    process: int


@dataclass(frozen=True)
class Resend:
    """The server of a file sends again what has no answer."""

    file: int


@dataclass(frozen=True)
class Declare:
    """A node is declared failed."""

    node: int


@dataclass(frozen=True)
class Restart:
    """A node that was declared failed begins again."""

    node: int


@dataclass(frozen=True)
class Learn:
    """The server of a file learns that an incarnation of a node failed."""

    file: int
    node: int
    incarnation: int


@dataclass(frozen=True)
class FailServer:
    """The server of a file is declared failed."""

    file: int


@dataclass(frozen=True)
class StartServer:
    """The server of a file begins again."""

    file: int


Command = Union[
    Call, Deliver, Lose, Settle, Interrupt, Retry, Resend, Declare, Restart, Learn, FailServer,
    StartServer,
]  # fmt: skip

_COMMANDS = {
    "deliver": Deliver,
    "lose": Lose,
    "settle": Settle,
    "interrupt": Interrupt,
    "retry": Retry,
    "resend": Resend,
    "declare": Declare,
    "restart": Restart,
    "learn": Learn,
    "fail-server": FailServer,
    "start-server": StartServer,
}


class ScriptLine(NamedTuple):
    """A line that gives a command, with its number in the text, from 1, and its own text."""

    number: int
    text: str
    command: Command

    @property
    def is_for_threads(self) -> bool:
        """Whether a script for threads may have the line."""
        return is_for_threads(self.text)


class Script(NamedTuple):
    """A script: its cluster, and its lines with commands, in order."""

    shape: ClusterShape
    lines: list[ScriptLine]


def is_for_threads(line: str) -> bool:
    """Says whether a script for threads may have a good line."""
    return line.partition(" ")[0] in _FOR_THREADS


def is_skipped(line: str) -> bool:
    """Says whether a line is skipped, as it is empty or a comment."""
    return not line or line[0] == "#"


def shape_of(line: str) -> Optional[ClusterShape]:
    """Returns the shape that a cluster line names, or None where the line is none."""
    values = values_of(CLUSTER_LINE, line)
    return ClusterShape(values[2], values[4], values[6]) if values else None  # type: ignore


def command_of(line: str) -> Optional[Command]:
    """Returns the command that a line gives, or None where the line gives none."""
    values = values_of(COMMAND, line)
    if values is None:
        return None
    if values[0] != "call":
        return _COMMANDS[values[0]](*values[1:])  # type: ignore
    _, node, process, word, *operands = values
    return Call(node, process, Operation(word, tuple(operands)))  # type: ignore


def numbered_lines(text: str) -> Iterator[tuple[int, str, bool]]:
    """Goes through the lines of a text: the number, the line, and whether it has a line feed."""
    number, start = 1, 0
    while True:
        end = text.find("\n", start)
        if end < 0:
            break
        yield number, text[start:end], True
        number, start = number + 1, end + 1
    if start < len(text):
        yield number, text[start:], False


def read_script(text: str, for_schedules: bool = False) -> Script:
    """Returns the script that a text writes, by default for a run.

    A script for schedules has lines that threads take. Its retries are passed over, since a
    schedule tries open calls again by itself. Raises the fault `bad line L` with the first line
    that may not stand where it does.
    """
    shape: Optional[ClusterShape] = None
    lines: list[ScriptLine] = []
    number = 0
    for number, line, is_whole in numbered_lines(text):
        if not is_whole:
            raise faults.bad_line(number)
        if is_skipped(line):
            continue
        if shape is None:
            shape = shape_of(line)
            if shape is None:
                raise faults.bad_line(number)
            continue
        command = command_of(line)
        if for_schedules and isinstance(command, Retry):
            continue
        is_refused = for_schedules and not is_for_threads(line)
        if command is None or is_refused or number > GREATEST_LINE:
            raise faults.bad_line(number)
        lines.append(ScriptLine(number, line, command))
    if shape is None:
        raise faults.bad_line(number + 1)
    return Script(shape, lines)


def first_line_not_for_threads(text: str) -> Optional[int]:
    """Returns the number of the first line of a script that threads don't take, or None."""
    is_behind_cluster = False
    for number, line, _ in numbered_lines(text):
        if is_skipped(line):
            continue
        if is_behind_cluster and not is_for_threads(line):
            return number
        is_behind_cluster = True
    return None


def expectations(text: str) -> Iterator[tuple[int, str, bool]]:
    """Goes through the `# expect WORDS` lines of a script: the number, the words, and whether
    the line counts, as a call stands right before it."""
    is_behind_call = False
    for number, line, is_whole in numbered_lines(text):
        if is_whole and line.startswith(EXPECT):
            yield number, line[len(EXPECT) :], is_behind_call
        is_behind_call = line.startswith("call ")
