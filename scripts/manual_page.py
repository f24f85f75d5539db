"""Writes the manual page of lockreplay of what its help says, for scripts/completions."""
import re

from help_texts import NAME, printed

ITEM = re.compile(r"  (\S+(?: \S+)*)  +(\S+(?: \S+)*)")
MORE = re.compile(r" {4,}(\S+(?: \S+)*)")


def escaped(text):
    """A text as a line of roff that has no request."""
    text = text.replace("\\", "\\e").replace("-", "\\-").replace("'", "\\(aq").replace("^", "\\(ha").replace("~", "\\(ti")
    return f"\\&{text}" if text.startswith(".") else text


def heading(request, text):
    return f'.{request} "{escaped(text)}"\n'


def item(names, text):
    return f".TP\n{names}\n{escaped(text)}\n"


def option_item(option):
    names = [f"\\fB\\-{option.letter}\\fR"] * bool(option.letter) + [f"\\fB{escaped('--' + option.name)}\\fR"]
    value = f" \\fI{option.value}\\fR" if option.value else ""
    return item(", ".join(names) + value, option.text + (f" [default: {option.default}]" if option.default else ""))


def usage(command):
    """The line that tells which words a command has."""
    front = "" if command.name == NAME else f"{command.name} "
    words = command.usage.removeprefix(front)
    return f".B {NAME} {escaped(front).strip()}\n{escaped(words)}\n" if words else f".B {NAME} {escaped(front).strip()}\n"


def items(block):
    """The names and the texts of lines that are such, if all of the block are."""
    found = []
    for line in block:
        match, more = ITEM.fullmatch(line), MORE.fullmatch(line)
        if match:
            found.append(list(match.groups()))
        elif more and found:
            found[-1][1] += f" {more[1]}"
        else:
            return None
    return found


def block_of(lines):
    """Lines that are set in: those of a list, or else lines that stay as they are."""
    found = items(lines)
    if found is None:
        return ".PP\n.nf\n" + "".join(f"{escaped(line)}\n" for line in lines) + ".fi\n"
    return "".join(item(escaped(name), text) for name, text in found)


def notes_of(notes):
    """What stands below the options: paragraphs, and in them lines that are set in."""
    made = []
    for paragraph in filter(None, notes.split("\n\n")):
        lines, first = paragraph.split("\n"), 0
        while first < len(lines):
            is_set_in = lines[first].startswith("  ")
            behind = next((at for at in range(first, len(lines)) if lines[at].startswith("  ") != is_set_in), len(lines))
            part = lines[first:behind]
            made.append(block_of(part) if is_set_in else ".PP\n" + "".join(f"{escaped(line)}\n" for line in part))
            first = behind
    return "".join(made)


def section(command):
    """What the page says of a command."""
    made = [heading("SS", f"{NAME} {command.name}"), usage(command), ".PP\n", f"{escaped(command.about)}.\n"]
    made += [item(f"\\fI{operand.name}\\fR", operand.text) for operand in command.operands]
    made += [option_item(option) for option in command.options]
    return "".join([*made, notes_of(command.notes)])


def manual_page(path, program, commands):
    """The page, of the program that lies there."""
    version = printed(path, "--version").strip()
    made = [f'.\\" scripts/completions made this file of what the program\'s help says.\n.TH LOCKREPLAY 1 "" "{version}" "User Commands"\n.nh\n.ad l\n']
    made += [".SH NAME\n", f"{NAME} \\- {escaped(program.about)}\n"]
    made += [".SH SYNOPSIS\n", usage(program), ".SH OPTIONS\n", *(option_item(option) for option in program.options)]
    made += [".SH DESCRIPTION\n", notes_of(program.notes), ".SH COMMANDS\n", *(section(command) for command in commands)]
    return "".join(made)
