"""`from-strace`: a script, or a history of clients, of what strace recorded."""

from __future__ import annotations

import re
import sys
from typing import Optional

from nuvatsimo import faults, traps
from nuvatsimo.names import Names
from nuvatsimo.strace.history import History, NoLocks, Recording, history_of
from nuvatsimo.strace.lines import MOST_NUMBER
from nuvatsimo.strace.reader import is_recording
from nuvatsimo.strace.script import Script, script_of
from nuvatsimo.strace.times import BadTime, LineTimes
from nuvatsimo.words import Argument, Command, Option, Parsed, number

MOST_NODES = 64
_STRACE = (
    "strace -f -e trace=fcntl,open,openat,openat2,creat,dup,dup2,dup3,close,close_range,clone,"
    "clone3,fork,vfork,execve,execveat,exit_group"
)
_HELP = f"""\
RECORDING is what this writes of a program and of the processes that it begins:
  {_STRACE} -o RECORDING PROGRAM
The text is a script, for 'lockreplay run', of the locks and descriptors of that program.
Comment lines '# expect' have the kernel's answers, others the paths and PIDs. Each process
that opens a file that is locked, and that none of these began, is placed on the next of
the N nodes, in turn; its children are on its node. A node that stays empty is told.
  fork, clone, dup                  are as recorded; a thread is its process
  fcntl: a lock that was got        stands where the call returned, and so does a query
  fcntl: another                    stands where it began
  a wait                            stands where it began, with a retry where it returned
  a wait that a signal ended        is interrupted
  a file                            is its path, as strace -y tells it, or else its open
  a descriptor without an open      is opened rw at its first lock call, where -y tells
                                    the path; not for F_OFD_SETLK
  F_GETLK                           asks about the segment of the answer, which strace
                                    writes over what was asked
Two calls that exclude each other and overlap may stand in another order than the kernel's.

With --place PID=NODE,.. each recorded process of such a PID is on node NODE, from 1 to N.
It begins there by itself, with no descriptor of the process that began it. Where PLACES
is no such list, or a NODE is past N, no script is made (exit status 3).

What is not served is told on standard error, by the line of RECORDING, the first hundred
times, and then how often more. The script has the other lines, and the exit status is 1.
Standard error also warns of each close that drops a lock which another descriptor of
the file had taken.

With --names TABLE a table of the names of files and processes is written too. Commands
that read the journal of the script take it: 'lockreplay explain', open, picture, stats.

With --history the text is a history of clients, for 'lockreplay judge', of what the
processes saw; there are no nodes then. Each line of RECORDING needs its time since 1970
(strace -ttt; with -y the paths of its files). A call begins at the time before its line,
and ends where it is resumed, else before the next line. Recordings of several machines
are given together, as NAME=RECORDING:
  lockreplay from-strace --history a=a.strace b=b.strace
A line whose time is missing or goes back is told as RECORDING:LINE (exit status 3).
"""
COMMAND = Command(
    "from-strace",
    "Turn the output of strace into a script or a history",
    (
        Argument(
            "recordings",
            "RECORDING",
            "The recording: the output of strace -f, or - for standard input",
            many=True,
        ),
    ),
    (
        Option(
            "--nodes",
            f"The nodes of the script's cluster, from 1 to {MOST_NODES}",
            "N",
            number(1, MOST_NODES),
            1,
        ),
        Option("--place", "Place recorded processes by hand, as 10=1,12=2", "PLACES"),
        Option("--history", "Make a history of clients, for 'lockreplay judge'"),
        Option("--names", "Write the names of files and processes to TABLE", "TABLE"),
    ),
    _HELP,
)
_APART = (
    "there is one RECORDING, or with '--history' several, and no '--nodes', '--place' or '--names'"
)
_NO_PLACES = (
    "--place PLACES: expected PID=NODE,.. with PIDs from 1 to 4294967295 and nodes from 1 to 64"
)
_PAST_NODES = "--place PLACES: expected nodes from 1 to the number of --nodes"
_NO_MACHINE = "from-strace --history: expected NAME=RECORDING for each of several"
_NO_NAMES = (
    "from-strace --history: expected for each recording a name of its own, without space or @"
)
_NO_LOCKS = "from-strace --history: expected a lock call on a file whose name is known"
_NO_RECORDING = (
    f"from-strace: no line is one that strace -f writes; this records a program: {_STRACE} -o RECORDING PROGRAM"
)
_PLACING = re.compile("([1-9][0-9]*)=([1-9][0-9]*)")
_NAME = re.compile("[^ @\x00-\x1f\x7f]+")


def main(words: list[str]) -> int:
    """Runs the command with the words behind it."""
    parsed = COMMAND.parse(words)
    made = _history(parsed) if parsed.history else _script(parsed)
    warnings = "" if isinstance(made, History) else _told_beside(made, parsed.names)
    if made.notes:
        raise faults.Fault(faults.NOT_SO, made.notes + warnings, made.text)
    sys.stdout.write(made.text)
    sys.stdout.flush()
    sys.stderr.write(warnings)
    return faults.DONE


def _told_beside(script: Script, table: Optional[str]) -> str:
    """Writes the table of names where one is asked for, and returns warnings of the script."""
    if table is not None:
        try:
            with open(table, "w", encoding="utf-8", newline="\n") as file:
                file.writelines(f"{line}\n" for line in script.names)
        except OSError as error:
            raise faults.cannot_write(table, faults.reason_of(error)) from None
    return traps.warnings_of(script.text, Names(script.names), script.origins)


def _script(parsed: Parsed) -> Script:
    """Makes a script of the one recording."""
    if len(parsed.recordings) > 1:
        raise COMMAND.refuse(_APART)
    text = _text_of(parsed.recordings[0])
    if not is_recording(text):
        raise faults.line(faults.BAD_INPUT, _NO_RECORDING)
    placings = _placings_in(parsed.place)
    if any(node > parsed.nodes for node in placings.values()):
        raise faults.line(faults.BAD_INPUT, _PAST_NODES)
    return script_of(text, parsed.nodes, placings)


def _placings_in(places: Optional[str]) -> dict[int, int]:
    """Returns the nodes of the PIDs that are placed by hand: the first that is named for each."""
    placings: dict[int, int] = {}
    for word in [] if places is None else places.split(","):
        found = _PLACING.fullmatch(word)
        if found is None or len(found[1]) > 10 or len(found[2]) > 2:
            raise faults.line(faults.BAD_INPUT, _NO_PLACES)
        pid, node = int(found[1]), int(found[2])
        if pid > MOST_NUMBER or node > MOST_NODES:
            raise faults.line(faults.BAD_INPUT, _NO_PLACES)
        placings.setdefault(pid, node)
    return placings


def _history(parsed: Parsed) -> History:
    """Makes a history of all recordings."""
    if parsed.nodes != 1 or parsed.place is not None or parsed.names is not None:
        raise COMMAND.refuse(_APART)
    is_alone = len(parsed.recordings) == 1
    read = [_read(word, is_alone) for word in parsed.recordings]
    if not is_alone and not _are_apart([machine for machine, _, _ in read]):
        raise faults.line(faults.BAD_INPUT, _NO_NAMES)
    recordings = [Recording(machine, text, _times_of(path, text)) for machine, path, text in read]
    try:
        return history_of(recordings)
    except NoLocks:
        raise faults.line(faults.BAD_INPUT, _NO_LOCKS) from None


def _read(word: str, is_alone: bool) -> tuple[Optional[str], str, str]:
    """Returns the machine that a word names, the path, and the text there.

    Of several recordings each has a machine. One that is alone has none.
    """
    if is_alone:
        return None, word, _text_of(word)
    machine, equals, path = word.partition("=")
    if not equals:
        raise faults.line(faults.BAD_INPUT, _NO_MACHINE)
    return machine, path, _text_of(path)


def _are_apart(machines: list[Optional[str]]) -> bool:
    """Tells whether each recording has a machine of its own, named by a word."""
    named = all(_NAME.fullmatch(machine or "") for machine in machines)
    return named and len(set(machines)) == len(machines)


def _times_of(path: str, text: str) -> LineTimes:
    """Returns the times of the lines of a recording."""
    try:
        return LineTimes(text)
    except BadTime as bad:
        raise faults.line(faults.BAD_INPUT, f"{path}:{bad.line}: {bad.reason}") from None


def _text_of(name: str) -> str:
    """Returns the text of a file, or of standard input where the name is `-`."""
    try:
        if name == "-":
            data = sys.stdin.buffer.read() if sys.stdin else b""
        else:
            with open(name, "rb") as file:
                data = file.read()
    except (OSError, ValueError) as error:
        reason = "no file may have this name"
        if isinstance(error, OSError):
            reason = faults.reason_of(error)
        raise faults.cannot_read(name, reason) from None
    try:
        return data.decode("utf-8")
    except UnicodeDecodeError:
        raise faults.cannot_read(name, faults.place_of_bad_byte(data) or "") from None
