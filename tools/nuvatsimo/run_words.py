"""Does `run --open` and `run --json`, over the listing and the journal of the program's `run`.

Of any `run` it warns of the closes by which a lock goes that another descriptor had taken.
"""

from __future__ import annotations

import os
import shutil
import stat
import sys
import tempfile
from collections.abc import Iterable, Iterator
from functools import partial
from typing import Any, Optional

from nuvatsimo import faults, program, traps
from nuvatsimo.journal import Source
from nuvatsimo.names import Names
from nuvatsimo.open_calls import Report
from nuvatsimo.texts import json_line, lock_of
from nuvatsimo.words import Argument, Command, Option, Parsed

SECTIONS = ("refused", "replies", "tokens", "locks", "history")
COMMAND = Command(
    "run",
    "Run each line of a script in order and print the listing",
    (Argument("script", "SCRIPT", "The script: a file of lines, or - for standard input"),),
    (
        Option("--after", "Go on behind the run of JOURNAL", "JOURNAL"),
        Option("--journal", "Write the journal of the run to FILE", "FILE"),
        Option("--expect", "Compare the replies with the '# expect' lines of SCRIPT"),
        Option("--open", "List the calls without a reply behind the listing"),
        Option("--quiet", "Make no listing, which needs --journal or --expect"),
        Option("--calm", "Go on behind SCRIPT until the run is calm"),
        Option("--json", "Print the text as JSON"),
    ),
    """\
With --open the listing has a sixth section, 'open', with the calls that have no reply, as
'lockreplay open' tells them; with --quiet it is that section alone.

With --json, which can't be used with --quiet, the listing is one line of JSON, and with
--open the calls are members of it, as 'lockreplay open --json' has them.

Standard error warns of each close, by its line, that drops a lock which another
descriptor of the file had taken. That changes no exit status.
""",
)


class Run:
    """A run of the program. `journal` is the file that it wrote, where one was asked for."""

    def __init__(self, asked: Parsed, room: str) -> None:
        self._room = room
        self.journal = asked.journal
        self._goes_on = asked.journal is not None and not _may_be_read_again(asked.journal)
        if self._goes_on or (asked.open and asked.journal is None):
            self.journal = os.path.join(room, "journal")
        answer = program.ask_beside(_words_of(asked, self.journal))
        if answer.status not in (faults.DONE, faults.NOT_SO) or _is_no_run(answer):
            program.checked(answer)
        self.status = answer.status
        self.listing = answer.output
        self.error = answer.error

    def hand_journal_to(self, name: Optional[str]) -> None:
        """Writes the journal to a device or a pipe, which can't be read again."""
        if not self._goes_on or name is None:
            return
        try:
            with open(self.journal, "rb") as made, open(name, "wb") as file:
                shutil.copyfileobj(made, file)
        except OSError:
            raise faults.cannot_write(name) from None


def _may_be_read_again(name: str) -> bool:
    try:
        return stat.S_ISREG(os.stat(name).st_mode) or os.path.isdir(name)
    except OSError:
        return True


def _is_no_run(answer: program.Answer) -> bool:
    """Says whether the journal that the run was to go on from is none of a run."""
    return answer.status == faults.NOT_SO and answer.output.startswith("audit no ")


def _words_of(asked: Parsed, journal: Optional[str]) -> list[str]:
    """Returns the words of the program's own `run`."""
    words = ["run"] + [flag for flag in ("--expect", "--quiet", "--calm") if _has(asked, flag)]
    if asked.after is not None:
        words.append(f"--after={asked.after}")
    if journal is not None:
        words.append(f"--journal={journal}")
    return [*words, "--", asked.script]


def _has(asked: Parsed, flag: str) -> bool:
    return bool(getattr(asked, flag[2:]))


def sections_of(listing: str) -> dict[str, list[str]]:
    """Returns the lines of each section of a listing."""
    sections: dict[str, list[str]] = {}
    left = list(reversed(SECTIONS))
    lines: list[str] = []
    for line in listing.splitlines():
        if left and line == left[-1]:
            lines = sections[left.pop()] = []
        else:
            lines.append(line)
    return sections


def item_of(section: str, line: str) -> dict[str, Any]:
    """Returns what a line of a section tells, for JSON."""
    if section == "refused":
        _, number, _, code = line.split()
        return {"line": int(number), "code": int(code)}
    if section in ("tokens", "locks"):
        name, file, lo, hi, word = line.split()
        if section == "locks":
            return {"file": int(file), "lock": lock_of(f"{word} {lo} {hi} {name}")}
        return {"host": name, "file": int(file), "level": word, "lo": int(lo), "hi": int(hi)}
    entry, name, rest = line.split(None, 2)
    if section == "replies":
        return {"entry": int(entry), "call": name, "reply": rest}
    if name == "gone":
        return {"entry": int(entry), "gone": rest}
    asked, _, reply = rest.partition(" -> ")
    process, _, op = asked.partition(" ")
    call = {"call": name, "process": int(process), "op": op, "reply": reply}
    return {"entry": int(entry), **call}


def json_of(listing: str, report: Optional[Report]) -> Iterator[str]:
    """Yields the pieces of the listing as JSON, with the open calls where there is a report."""
    sections = sections_of(listing)
    members: dict[str, Iterable[Any]] = {
        name: map(partial(item_of, name), lines) for name, lines in sections.items()
    }
    if report is not None:
        members.update(report.document())
    for at, (name, items) in enumerate(sorted(members.items())):
        yield f'{"," if at else "{"}"{name}":['
        for place, item in enumerate(items):
            yield ("," if place else "") + json_line(item)[:-1]
        yield "]"
    yield "}\n"


def _text_of(script: str) -> str:
    """Returns the text of a script that was run, and none where it can't be read again."""
    try:
        if script != "-" and os.path.isfile(script):
            with open(script, encoding="utf-8", newline="\n") as file:
                return file.read()
    except (OSError, ValueError):
        pass
    return ""


def _names_in(script: str) -> Names:
    """Returns the names that the comments of a script tell."""
    return Names(_text_of(script).split("\n"))


def _warnings_of(asked: Parsed) -> str:
    """Returns the warnings of a script that was run. Where they can't be found there are none."""
    if asked.after is not None:
        return ""
    text = _text_of(asked.script)
    try:
        return traps.warnings_of(text, Names(text.split("\n")))
    except (OSError, ValueError, MemoryError, faults.Fault):
        return ""


def warn_of_closes(words: list[str]) -> int:
    """Prints the warnings of a script that the program ran by these words."""
    sys.stdout.write(_warnings_of(COMMAND.parse(words[1:])))
    return faults.DONE


def main(words: list[str]) -> int:
    """Runs `run --open` and `run --json`."""
    asked = COMMAND.parse(words)
    if asked.quiet and asked.json:
        raise COMMAND.refuse("the argument '--quiet' cannot be used with '--json'")
    if asked.quiet and asked.journal is None and not asked.expect:
        raise COMMAND.refuse("the argument '--quiet' needs '--journal <FILE>' or '--expect'")
    with tempfile.TemporaryDirectory(prefix="nuvatsimo-") as room:
        run = Run(asked, room)
        source = Source(run.journal, run.journal)
        report = Report(source, _names_in(asked.script)) if asked.open else None
        run.hand_journal_to(asked.journal)
    if asked.json:
        sys.stdout.writelines(json_of(run.listing, report))
    else:
        sys.stdout.write(run.listing)
        if report is not None:
            sys.stdout.write("open\n")
            sys.stdout.writelines(f"{line}\n" for line in report.lines())
    sys.stdout.flush()
    sys.stderr.write(run.error + _warnings_of(asked))
    return run.status
