"""The command `check`: says what is wrong in scripts and journals."""

from __future__ import annotations

import os
import sys
import tempfile
from collections.abc import Iterator
from contextlib import contextmanager
from typing import NamedTuple

from nuvatsimo import check_trial, check_warnings, faults, program, reason_words, reasons
from nuvatsimo.check_reports import journal_report, script_report
from nuvatsimo.journal import MOST_ENTRIES, Source
from nuvatsimo.scripts import first_line_not_for_threads
from nuvatsimo.texts import json_line
from nuvatsimo.words import Argument, Command, Option

_TEXT = """\
Each SCRIPT is read. Each bad line, of the first hundred, is told in a line on standard
error, with the place in it where it goes wrong, and then how many more there are (exit
status 3); COLUMN counts characters, from 1:
  two.lock:4:10: expected an operation, found "spwan" (did you mean "spawn"?)
Where all lines are good, the text is 'script yes' and one of these (exit status 0):
  threads yes     'lockreplay threads' takes every line
  threads no L    line L, counted from 1, is the first that it doesn't take

SCRIPT may be a journal too, whose first line begins with 'journal '. Where it reads as
one, the text is 'journal yes' and one of these (exit status 0):
  run yes         its entries are a run
  run no K        entry K, counted from 1, is the first that is not the next step; behind
                  it stands why, as of 'lockreplay audit --why'
Else it is told on standard error where its text goes wrong, as that it was cut off (exit
status 3).

Of several files each line of the text begins with 'SCRIPT: '; with --json each file is
told in one line. Where one can't be read, or with --journal FILE no journal could be
written to FILE, standard error says why (exit status 3); FILE stays as it is.

Standard error also warns of a '# expect' line that counts for nothing, and of a line that
'lockreplay run' would refuse with 13 or 14, for which a good script is run. That changes
no exit status.
"""

COMMAND = Command(
    "check",
    "Say what is wrong in scripts and journals",
    (
        Argument(
            "scripts",
            "SCRIPT",
            "The script or the journal: a file of lines, or - for standard input",
            many=True,
        ),
    ),
    (
        Option("--journal", "Say also why a journal can't be written to FILE", value="FILE"),
        Option("--json", "Print the text as JSON"),
    ),
    _TEXT,
)

_FULL = f"a journal has no more than {MOST_ENTRIES} entries"


class Checked(NamedTuple):
    """What is said of a good file, what is odd in it, and what is wrong with a bad one."""

    told: str = ""
    warnings: str = ""
    report: str = ""


def main(words: list[str]) -> int:
    """Runs the command with these words behind it, and returns the exit status."""
    asked = COMMAND.parse(words)
    is_named = len(asked.scripts) > 1 and not asked.json
    checked = [_checked_file(path, asked.json, is_named) for path in asked.scripts]
    report = "".join(one.report for one in checked)
    refusal = check_trial.refusal_of(asked.journal) if asked.journal is not None else None
    if refusal:
        report += refusal.error
    if report:
        raise faults.Fault(faults.BAD_INPUT, report)
    for one in checked:
        sys.stdout.write(one.told)
    sys.stdout.flush()
    sys.stderr.write("".join(one.warnings for one in checked))
    return faults.DONE


def _checked_file(path: str, as_json: bool, is_named: bool) -> Checked:
    """Checks a file. What is said of it stands behind its path if `is_named`."""
    try:
        data = _bytes_of(path)
        text = data.decode("utf-8")
    except UnicodeDecodeError:
        place = faults.place_of_bad_byte(data) or ""
        return Checked(report=faults.cannot_read(path, place).error)
    except OSError as error:
        return Checked(report=faults.cannot_read(path, faults.reason_of(error)).error)
    if text.startswith("journal "):
        checked = _checked_journal(path, data, text, as_json)
    else:
        checked = _checked_script(path, text, as_json)
    if not is_named:
        return checked
    lines = checked.told.split("\n")[:-1]
    return checked._replace(told="".join(f"{path}: {line}\n" for line in lines))


def _bytes_of(path: str) -> bytes:
    with open("/dev/stdin" if path == "-" else path, "rb") as file:
        return file.read()


def _checked_script(path: str, text: str, as_json: bool) -> Checked:
    report = script_report(path, text)
    if report:
        return Checked(report=report)
    number = first_line_not_for_threads(text)
    if as_json:
        told = json_line({"script": path, "threads": number is None, "line": number})
    else:
        told = f"script yes\nthreads {'yes' if number is None else f'no {number}'}\n"
    return Checked(told, check_warnings.warnings_of(path, text))


def _checked_journal(path: str, data: bytes, text: str, as_json: bool) -> Checked:
    answer = program.ask(["audit", "-"], data)
    if answer.error.startswith("bad line "):
        number = int(answer.error[len("bad line ") :])
        return Checked(report=journal_report(path, text, number))
    if answer.error == faults.journal_full().error:
        return Checked(_told_full(path, as_json))
    position = reasons.position_in(answer)
    if position is None:
        run = json_line({"journal": path, "run": True})
        return Checked(run if as_json else "journal yes\nrun yes\n")
    with _source_of(path, data) as source:
        why = reasons.why(source, position)
    if as_json:
        members = {"journal": path, "run": False, "entry": position}
        return Checked(json_line({**members, **reason_words.members_of(why)}))
    return Checked(f"journal yes\nrun no {position}\n{reason_words.text_of(why)}")


def _told_full(path: str, as_json: bool) -> str:
    """Says of a journal that it has more entries than journals have."""
    if not as_json:
        return f"journal yes\nrun no {MOST_ENTRIES + 1}\nrefused: {_FULL}\n"
    refused = {"reason": _FULL}
    first = MOST_ENTRIES + 1
    return json_line({"journal": path, "run": False, "entry": first, "refused": refused})


@contextmanager
def _source_of(path: str, data: bytes) -> Iterator[Source]:
    """Makes a journal ready to be read again, also one that came through a pipe."""
    if path != "-" and os.path.isfile(path):
        yield Source(path, os.path.join(".", path))
        return
    with tempfile.NamedTemporaryFile(prefix="nuvatsimo-", suffix=".journal") as copy:
        copy.write(data)
        copy.flush()
        yield Source(path, copy.name)
