"""Reads the help of lockreplay, of its program and of its tools, for scripts/completions."""
import collections
import re
import subprocess

NAME = "lockreplay"
FILES = ("SCRIPT", "JOURNAL", "RECORDING", "HISTORY", "FILE", "LOG", "STATE", "MEMBERS")
HEADINGS = ("Usage:", "Commands", "Arguments:", "Options:")
COMMAND = re.compile(r"  (\S+)  +(.+)")
OPERAND = re.compile(r"  [<\[](\w+)[>\]](\.\.\.)?(?:  (.+))?")
OPTION = re.compile(r" {2,6}(?:-(\w), )?--([\w-]+)(?: <(\w+)>)?")
POSSIBLE = re.compile(r" \[possible values: (.*), (\S+)\]$")
LISTED = re.compile(r"\bas ([\w-]+(?:, [\w-]+)* or [\w-]+)$")

# An operand; whether it may stand there several times.
Operand = collections.namedtuple("Operand", "name many text")
# An option: the letter or nothing, the name, what its value is called or nothing, the words that the value may be where they are told, and
# whether it may be given again.
Option = collections.namedtuple("Option", "letter name value text default words again")
# A command: its name, what it does, its operands and options, and what stands below them in the help.
Command = collections.namedtuple("Command", "name about usage operands options notes")


def printed(program, *words):
    """What the program prints on standard output, which it has to end with status 0."""
    return subprocess.run([program, *words], stdin=subprocess.DEVNULL, capture_output=True, timeout=60, encoding="utf-8", check=True).stdout


def read(program):
    """The program itself as a command, and then its commands, in the order of its help, `help` last."""
    whole, names = sections(printed(program, "help"))
    found = [command_of(NAME, whole)]
    told = [COMMAND.fullmatch(line)[1] for line in names]
    for name in told:
        help_of, _ = sections(printed(program, "help", name))
        found.append(command_of(name, help_of))
    return found


def sections(text):
    """The lines of the help by their headings, those before the first and behind the last under `about` and `notes`; the lines of commands."""
    found, section = collections.defaultdict(list), "about"
    for line in text.rstrip("\n").split("\n"):
        heading = next((word for word in HEADINGS if line.startswith(word)), None)
        if heading and section != "notes":
            section = heading
            found[section].append(line[len(heading) :].strip())
        elif section in HEADINGS[2:] and line and not line.startswith(" "):
            section = "notes"
            found[section].append(line)
        else:
            found[section].append(line)
    return found, [line for line in found["Commands"] if COMMAND.fullmatch(line)]


def command_of(name, found):
    """The command of these sections of its help."""
    notes = "\n".join(found["notes"])
    usage = found["Usage:"][0].split(" ", 1)[1]
    operands = [operand_of(*match.groups(), rest) for match, rest in items(OPERAND, found["Arguments:"])]
    options = [option_of(*match.groups(), rest, notes) for match, rest in items(OPTION, found["Options:"])]
    return Command(name, found["about"][0], usage, operands, options, notes)


def items(form, lines):
    """The lines of this form, each with the lines behind it."""
    found = []
    for line in lines:
        match = form.fullmatch(line)
        if match:
            found.append((match, []))
        elif found:
            found[-1][1].append(line.strip())
    return found


def text_of(lines):
    """What the lines behind an argument say of it, and the default that they name."""
    text = " ".join(line for line in lines if line)
    said, _, default = text.partition(" [default: ")
    return POSSIBLE.sub(r", as \1 or \2", said), default.rstrip("]")


def operand_of(name, many, text, lines):
    return Operand(name, bool(many), text or text_of(lines)[0])


def option_of(letter, name, value, lines, notes):
    text, default = text_of(lines)
    if name == "help":
        text = text.partition(" (")[0]
    listed = LISTED.search(text) if value else None
    words, again = (re.split(", | or ", listed[1]), False) if listed else words_in(f"With --{name} {value}", notes)
    return Option(letter, name, value, text, default, words, again)


def words_in(beginning, notes):
    """The words that a list in the notes has, behind a paragraph that begins so; and whether that says that there may be one for each."""
    for paragraph in notes.split("\n\n"):
        if re.match(rf"{re.escape(beginning)}\b", paragraph):
            lead, _, rest = paragraph.partition(":\n")
            return re.findall(r"^  (\S+)  ", rest, re.MULTILINE), "once for each" in lead
    return [], False
