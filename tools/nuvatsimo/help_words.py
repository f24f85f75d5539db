"""Prints help: the list of all commands, or what one command does."""

from __future__ import annotations

import sys

from nuvatsimo import faults, program
from nuvatsimo.words import MORE, Command

ABOUT = "Run scripts of record locks in a cluster, and print what came of them"
_USAGE = "Usage: lockreplay <COMMAND>"
_TRY = """\
Try, in a clone:
  lockreplay run examples/denied.lock
  lockreplay judge examples/judge/found/close-keeps-locks.history
  lockreplay from-strace examples/lost-lock.strace
"""
_PROVED = (
    ("run", "Run each line of a script in order and print the listing"),
    ("threads", "Run a script on threads and print the listing"),
    ("audit", "Check that a journal records a possible run"),
    ("history", "Print the history of a journal"),
    ("state", "Show what the cluster of a journal holds"),
    ("judge", "Judge what clients of a lock manager saw"),
    ("seat", "Be one node or one token server, which reads and writes lines"),
    ("members", "Keep the list of the nodes and servers that failed and began again"),
    ("merge", "Make one journal of the logs of seats"),
    ("play", "Play events that are read line by line"),
)
_TOOLS = (
    ("explain", "Tell the story of a call of a journal"),
    ("open", "List the calls of a journal that have no reply"),
    ("check", "Say what is wrong in scripts and journals"),
    ("picture", "Draw a journal, as SVG or Mermaid"),
    ("stats", "Count what a journal has"),
    ("from-strace", "Turn the output of strace into a script or a history"),
    ("explore", "Run a script under many schedules and tell the outcomes"),
    ("schedule", "Print the script of a schedule"),
    ("help", "Print this message or the help of the given command"),
)
_ADDED = """\
Of the tools are also --open and --json of run, --why of audit, --node, --file and
--json of state, and --picture of judge.
"""
_NOTES = """\
Examples. Play a script, keep the journal of the run, and check that it is one:
  lockreplay run SCRIPT --journal FILE
  lockreplay audit FILE
Go on behind it, and print the one order of its calls:
  lockreplay run SCRIPT --after FILE
  lockreplay history FILE
Tell what became of a call, which calls have no reply, and what nodes and servers hold
behind entry 12:
  lockreplay explain FILE 2.1.3
  lockreplay open FILE
  lockreplay state FILE --at 12
See it as a picture, or count what is in it:
  lockreplay picture FILE > run.svg
  lockreplay stats FILE
See why a journal is no run, and what is wrong in scripts:
  lockreplay audit FILE --why
  lockreplay check SCRIPT SCRIPT
Compare each reply with what the script expects, under one schedule or under many:
  lockreplay run SCRIPT --expect --quiet
  lockreplay explore SCRIPT
  lockreplay schedule SCRIPT --seed 7
Turn what strace recorded into a script, and judge what clients of any lock manager saw:
  lockreplay from-strace RECORDING
  lockreplay judge HISTORY
  lockreplay from-strace RECORDING --history | lockreplay judge -
Have each node and each token server as a process that reads and writes lines, keep the
list of those that failed, and make one journal of their logs:
  lockreplay seat node 1 --nodes 2 --files 1 --policy wide --log LOG
  lockreplay members --nodes 2 --files 1 --state LIST
  lockreplay merge LOG LOG LOG --members LIST --journal FILE
'lockreplay help run' tells how a script is written and what the listing shows.

Where a file is read, - is standard input. FILE is the name of a file also where it is -.

Exit status:
  0  any command               done; a journal that it reads is one of a run
  1  any that reads a journal  it is not one of a run, or lacks what is asked for
  1  run --expect, explore     an answer is not as expected
  1  run --calm                its rounds were cut off
  1  explore                   a call is blocked for good, and nothing says that it may be
  1  explore --all             not all schedules were gone through
  1  threads                   a receipt is lacking, or the run was stopped as stuck
  1  judge                     a history, or an order of one, is contradicted
  1  merge                     the logs have no order
  1  from-strace, picture      a part is not served, or not drawn
  2  any command               the words of the command line are refused
  3  any command               a file has a bad line, can't be read or can't be written
  3  run --after, from-strace  the journal is too old; PLACES places no process
  4  any command               no memory, or more entries than a journal may have (1048576)
  5  judge                     it is not known whether a history is contradicted
  5  threads                   the run was stopped where a call could still be answered

Standard error says which of 2 to 5 it is, in one line; 'check' has one for each of the
first hundred bad lines. Where run or threads says 'bad line L', 'lockreplay check SCRIPT'
tells why; where audit or history does, 'lockreplay check JOURNAL'. These four don't tell
why a file can't be read: 'lockreplay check FILE' does.
"""
_HELP = """\
Print this message or the help of the given command

Usage: lockreplay help [COMMAND]...

Arguments:
  [COMMAND]...  Print help for the command
"""


def commands() -> str:
    """Returns the two lists of commands."""
    lines = ["Commands of the program, which is proved:"]
    lines += [f"  {name:<11}  {about}" for name, about in _PROVED]
    lines += ["", "Commands of the tools, which are tested and ask the program for what holds:"]
    lines += [f"  {name:<11}  {about}" for name, about in _TOOLS]
    return "\n".join(lines) + f"\n{_ADDED}"


def long_help() -> str:
    """Returns what `help` prints."""
    options = "  -h, --help\n          Print help (see a summary with '-h')\n\n"
    options += "  -V, --version\n          Print version\n"
    return f"{ABOUT}\n\n{_USAGE}\n\n{_TRY}\n{commands()}\nOptions:\n{options}\n{_NOTES}"


def short_help() -> str:
    """Returns what `-h` prints, and a command line without words on standard error."""
    options = "  -h, --help     Print help (see more with '--help')\n"
    options += "  -V, --version  Print version\n"
    return f"{ABOUT}\n\n{_USAGE}\n\n{commands()}\nOptions:\n{options}"


def shared_help(command: Command, flag: str = "--help") -> str:
    """Returns the program's help of a command, and what the tools add to it."""
    text = program.checked(program.ask([command.name, flag]))
    added = [option for option in command.options if f" {option.flag}" not in text]
    if not added:
        return text
    lines = ["", "Options of the tools:"]
    for option in added:
        lines += [f"      {option.shown()}", f"          {option.about}"]
    notes = f"\n{command.text}" if command.text and flag == "--help" else ""
    return text + "\n".join(lines) + "\n" + notes


def main(words: list[str]) -> int:
    """Prints the help that the words ask for: none, `-h`, `--help`, or a command."""
    from nuvatsimo.__main__ import COMMANDS, SHARED, command_of

    if words[:1] == ["--"]:
        words = words[1:]
        if words[0] not in COMMANDS:
            raise _unknown(words[0])
    if words[:1] in (["-h"], ["--help"]) and words[1:]:
        sys.stdout.write(shared_help(command_of(words[1]), words[0]))
        return faults.DONE
    if not words or words[0] in ("-h", "--help"):
        sys.stdout.write(short_help() if words == ["-h"] else long_help())
        return faults.DONE
    name, *behind = words
    if name == "help" and not behind:
        sys.stdout.write(_HELP)
    elif name in COMMANDS and name != "help":
        command = command_of(name)
        if behind:
            raise _unknown(behind[0], command.usage())
        sys.stdout.write(shared_help(command) if name in SHARED else command.help())
    elif name in [known for known, _ in _PROVED]:
        return program.hand_on(["help", *words])
    else:
        raise _unknown(name)
    return faults.DONE


def _unknown(word: str, usage: str = _USAGE) -> faults.Fault:
    kind = "unexpected argument" if word.startswith("-") else "unrecognized subcommand"
    found = " found" if word.startswith("-") else ""
    error = f"error: {kind} '{word}'{found}\n\n{usage}{MORE}"
    return faults.Fault(faults.WORDS_REFUSED, error)
