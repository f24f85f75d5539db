"""Finds the module of a command, and runs it."""

from __future__ import annotations

import importlib
import io
import os
import sys
from typing import Callable

from nuvatsimo import faults
from nuvatsimo.words import Command

# By command: the module, the name of its function, and the name of its `Command`.
COMMANDS = {
    "explain": ("nuvatsimo.stories", "main", "COMMAND"),
    "open": ("nuvatsimo.open_calls", "main", "COMMAND"),
    "stats": ("nuvatsimo.counts", "main", "COMMAND"),
    "picture": ("nuvatsimo.pictures.main", "main", "COMMAND"),
    "check": ("nuvatsimo.checks", "main", "COMMAND"),
    "from-strace": ("nuvatsimo.strace.main", "main", "COMMAND"),
    "explore": ("nuvatsimo.explore.main", "explore", "EXPLORE"),
    "schedule": ("nuvatsimo.explore.main", "schedule", "SCHEDULE"),
    "audit": ("nuvatsimo.reasons", "main", "COMMAND"),
    "state": ("nuvatsimo.state_words", "main", "COMMAND"),
    "run": ("nuvatsimo.run_words", "main", "COMMAND"),
    "judge": ("nuvatsimo.pictures.judged", "main", "COMMAND"),
    "help": ("nuvatsimo.help_words", "main", ""),
}

# What tools/lockreplay asks for behind a `run` of the program. No user gets here by that name.
INNER = {"warn-of-closes": ("nuvatsimo.run_words", "warn_of_closes", "")}

# Commands of the program, of which the tools do some options.
SHARED = ("run", "audit", "state", "judge")


def function_of(word: str) -> Callable[[list[str]], int]:
    """Returns the function of a command. Its module is imported only now."""
    module, name, _ = COMMANDS.get(word) or INNER[word]
    return getattr(importlib.import_module(module), name)


def command_of(word: str) -> Command:
    """Returns what a command takes, with its help."""
    module, _, name = COMMANDS[word]
    return getattr(importlib.import_module(module), name)


def main(words: list[str]) -> int:
    """Runs the command that the words name, and returns the exit status."""
    if not words:
        from nuvatsimo.help_words import short_help

        sys.stderr.write(short_help())
        return faults.WORDS_REFUSED
    word, *behind = words
    if word in ("-h", "--help"):
        return _guarded("help", [word])
    if word not in COMMANDS and word not in INNER:
        return _guarded("help", ["--", word])
    if word in SHARED and {"-h", "--help"} & set(behind):
        flag = "-h" if "-h" in behind else "--help"
        return _guarded("help", [flag, word])
    return _guarded(word, behind)


def _guarded(word: str, words: list[str]) -> int:
    """Runs a command. Faults become their lines, and an output that fails its own."""
    try:
        status = _run(word, words)
        sys.stdout.flush()
        return status
    except KeyboardInterrupt:
        _drop_output()
        return 130
    except MemoryError:
        _drop_output()
        sys.stderr.write(faults.no_memory().error)
        return faults.TOO_MUCH
    except BrokenPipeError:
        _drop_output()
        return faults.BAD_INPUT
    except OSError:
        _drop_output()
        sys.stderr.write(faults.cannot_write_output().error)
        return faults.BAD_INPUT


def _run(word: str, words: list[str]) -> int:
    try:
        return function_of(word)(words)
    except faults.Fault as fault:
        sys.stdout.write(fault.output)
        sys.stdout.flush()
        sys.stderr.write(fault.error)
        return fault.status


def _drop_output() -> None:
    """Keeps the end of the process from writing again to an output that failed."""
    try:
        os.dup2(os.open(os.devnull, os.O_WRONLY), 1)
    except OSError:
        pass


class _Closed(io.TextIOBase):
    """Stands for an output that was closed before the start: what is written fails."""

    def write(self, text: str) -> int:
        if text:
            raise OSError("the output is closed")
        return 0


def start() -> None:
    """Starts the tools with the words of the command line."""
    if os.environ.get("LOCKREPLAY_INPUT") == "folder":
        os.dup2(os.open("/", os.O_RDONLY), 0)
    sys.stdout = sys.stdout or _Closed()
    sys.stderr = sys.stderr or io.StringIO()
    for stream in (sys.stdout, sys.stderr):
        if isinstance(stream, io.TextIOWrapper):
            stream.reconfigure(encoding="utf-8", errors="surrogateescape", newline="\n")
    sys.exit(main(sys.argv[1:]))


if __name__ == "__main__":
    start()
