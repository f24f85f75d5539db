"""The commands `explore` and `schedule`."""

from __future__ import annotations

import sys

from nuvatsimo import faults, scripts
from nuvatsimo.explore.outcomes import Outcomes
from nuvatsimo.explore.reports import json_of_seeds, text_of_all, text_of_seeds
from nuvatsimo.explore.schedules import schedule_of
from nuvatsimo.explore.search import search_all
from nuvatsimo.explore.seeds import explore_seeds
from nuvatsimo.explore.situations import Limits
from nuvatsimo.words import Argument, Command, Option, Parsed, number

_SCRIPT = Argument("script", "SCRIPT", "The script: a file of lines, or - for standard input")
_FAILURES = Option("--failures", "Let nodes and servers fail")

SCHEDULE = Command(
    "schedule",
    "Print the script of a schedule",
    (_SCRIPT,),
    (
        Option(
            "--seed", "The seed of the schedule, up to 4294967295", "N", number(), default=1
        ),
        _FAILURES,
    ),
    """\
The script is one that 'lockreplay threads' takes; lines 'retry' are passed over. The
text is the script of the schedule of seed N, which 'lockreplay explore' runs: with
'deliver', 'lose' and other lines, which say what becomes of each message. 'lockreplay
run' replays it. With --failures a node and a server may fail in it, as with
'lockreplay explore --failures'.
""",
)

EXPLORE = Command(
    "explore",
    "Run a script under many schedules and tell the outcomes",
    (_SCRIPT,),
    (
        Option("--seeds", "How many schedules, up to 4294967295", "COUNT", number(1), default=100),
        Option(
            "--first",
            "The seed of the first schedule, up to 4294967295",
            "N",
            number(),
            default=1,
        ),
        _FAILURES,
        Option("--json", "Print the text as JSON"),
        Option("--all", "Go through every schedule, instead of those of seeds"),
        Option(
            "--losses",
            "With --all: how many messages may be lost",
            "LOSSES",
            number(),
            default=0,
        ),
        Option(
            "--repeats",
            "With --all: how often messages may come again",
            "REPEATS",
            number(),
            default=0,
        ),
        Option(
            "--states",
            "With --all: after how many states to give up",
            "STATES",
            number(1),
            default=1000000,
        ),
    ),
    """\
The script is one that 'lockreplay threads' takes; lines 'retry' are passed over. It is
run under COUNT schedules, of the seeds from N on. The text tells the distinct outcomes:
how often each came, and its first seed, whose schedule 'lockreplay schedule' prints.

The calls up to a line that is no call happen side by side, each process's own in order.
What comes next is drawn from all that may: of eight messages one is lost, of sixteen that
come one comes again. Where nothing may come and a call is open, servers send again and
open calls are tried again, up to four times. With --failures a node and a server may fail
too, once each at most. An outcome has an answer of each call:
  a reply, or refused CODE    as 'lockreplay run' has it
  open, not delivered yet     no lock of another owner blocks it
  open, blocked for good      such a lock does, and every other open call is blocked too
  open                        else, as where its node or its server failed
  not made                    a call of its process before it is open

A comment line right behind a 'call' line says what its reply begins with, letter by
letter:
  # expect WORDS
Outcomes in which a reply begins otherwise are told first, and the exit status is 1.
It is 1 too, and the last line says so, where a call is blocked for good in an outcome
and no such comment stands behind it: '# expect open' says that it may stay so. Where
there is neither, the status is 0.

With --all the script, a small one, is run under every schedule instead; --seeds, --first,
--failures and --json don't go with it. Messages come in any order, up to LOSSES of them
are lost, and up to REPEATS times one comes again. Where nothing is under way and a call
is open that no lock blocks, its node and its server send again, eight times at most
without a reply between. Schedules that come to one state go on as one. A shortest one
that breaks what is expected is printed below the outcomes. Where there are more than
STATES states, the text says that not all schedules were gone through (exit status 1).
""",
)

_TOGETHER = "'--losses', '--repeats' and '--states' go with '--all', and nothing else does"


def schedule(words: list[str]) -> int:
    """Runs `schedule`."""
    asked = SCHEDULE.parse(words)
    script = scripts.read_script(_text_of(asked.script), for_schedules=True)
    made = schedule_of(script, asked.seed, asked.failures)
    sys.stdout.write("".join(f"{line}\n" for line in (script.shape.text, *made.lines)))
    return faults.DONE


def explore(words: list[str]) -> int:
    """Runs `explore`. The status is 1 where an outcome is not as expected."""
    asked = EXPLORE.parse(words)
    if _has_others(asked):
        raise EXPLORE.refuse(_TOGETHER)
    text = _text_of(asked.script)
    script = scripts.read_script(text, for_schedules=True)
    outcomes = Outcomes(text, script)
    is_whole = True
    if asked.all:
        limits = Limits(asked.losses, asked.repeats, asked.states)
        found = search_all(outcomes, script, limits)
        is_whole = found.is_whole
        sys.stdout.write(text_of_all(outcomes, script, found))
    else:
        explore_seeds(outcomes, script, asked.first, asked.seeds, asked.failures)
        told = json_of_seeds if asked.json else text_of_seeds
        sys.stdout.write(told(outcomes, asked.seeds))
    return faults.DONE if is_whole and not outcomes.wanting() else faults.NOT_SO


def _has_others(asked: Parsed) -> bool:
    """Says whether options are given that don't go together. Defaults go with all."""
    is_default = (asked.losses, asked.repeats, asked.states) == (0, 0, 1000000)
    if not asked.all:
        return not is_default
    return asked.failures or asked.json or (asked.seeds, asked.first) != (100, 1)


def _text_of(name: str) -> str:
    """Reads a script from a file, or from standard input."""
    try:
        if name == "-":
            content = sys.stdin.buffer.read()
        else:
            with open(name, "rb") as file:
                content = file.read()
    except OSError as error:
        raise faults.cannot_read(name, faults.reason_of(error)) from None
    place = faults.place_of_bad_byte(content)
    if place:
        raise faults.cannot_read(name, place)
    return content.decode()
