"""Reads the lines of a recording: the PID, the time, and what stands behind both."""

from __future__ import annotations

import re
from typing import Iterator, NamedTuple, Optional, Union

MOST_NUMBER = 2**32 - 1
# What Unicode calls white space. `str.strip` takes other characters away too.
WHITE_SPACE = (
    "\t\n\v\f\r \x85\xa0\u1680\u2000\u2001\u2002\u2003\u2004\u2005\u2006\u2007\u2008\u2009\u200a"
    "\u2028\u2029\u202f\u205f\u3000"
)
_DIGITS = re.compile("[0-9]*")
_TIME = re.compile("[0-9]*[.:][0-9.:]*")
_PLAIN_PID = re.compile("([0-9]{1,9}) ")
_NAME = re.compile("[0-9A-Za-z_]+")
_BEHIND_TOLD = (",", " ", ")", "]", "(deleted)")
_ASIDE = ("--- ", "+++ ", "strace: ")
_ENDS = ("exited with ", "killed by ")
_SUPERSEDED = "+++ superseded by execve in pid "
_UNFINISHED = " <unfinished ...>"


class Described(NamedTuple):
    """A PID or a descriptor, what strace tells of it with -y or -Y, and the text behind both."""

    number: int
    told: Optional[str]
    rest: str

    def path(self) -> Optional[str]:
        """Returns the path that strace tells of a descriptor."""
        return self.told if self.told is not None and self.told.startswith("/") else None


class Whole(NamedTuple):
    """A call that returned this in the same line."""

    name: str
    arguments: str
    gave: str


class Begun(NamedTuple):
    """A call that did not return yet."""

    name: str
    arguments: str


class Resumed(NamedTuple):
    """The rest of the arguments of a call that began in a line above, and what it returned."""

    arguments: str
    gave: str


class Gone(NamedTuple):
    """The process or thread is gone. It tells how, as `exited with 0 +++`."""

    how: str


class Superseded(NamedTuple):
    """The thread executes a program, so it goes on under the PID of its process."""

    thread: int


class Aside(NamedTuple):
    """A signal, or what strace says of itself."""


Said = Union[Whole, Begun, Resumed, Gone, Superseded, Aside]


def lines_of(text: str) -> Iterator[str]:
    """Yields the lines of a text, without their ends. A line feed or CR LF ends a line."""
    start, end = 0, text.find("\n")
    while end >= 0:
        has_return = end > start and text[end - 1] == "\r"
        yield text[start : end - 1 if has_return else end]
        start, end = end + 1, text.find("\n", end + 1)
    if start < len(text):
        yield text[start:]


def number_in(text: str) -> Optional[int]:
    """Returns the number that a text begins with, if it is one of 32 bits."""
    digits = _DIGITS.match(text)[0]
    if not digits:
        return None
    number = int(digits) if len(digits) < 20 else int(digits.lstrip("0")[:20] or "0")
    return number if number <= MOST_NUMBER else None


def described(text: str) -> Optional[Described]:
    """Returns the number that a text begins with, and what strace tells of it."""
    number = number_in(text)
    if number is None:
        return None
    rest = text[_DIGITS.match(text).end() :]
    inside = bracketed(rest) if rest.startswith("<") else None
    if inside is None:
        return Described(number, None, rest)
    return Described(number, *inside)


def bracketed(text: str) -> Optional[tuple[str, str]]:
    """Returns what stands between the angle brackets that a text begins with, and the rest.

    Other brackets may stand between them, as in `</dev/tty<char 5:0>>`.
    """
    if not text.startswith("<"):
        return None
    end = text.find(">", 1)
    while end >= 0:
        if end + 1 == len(text) or text.startswith(_BEHIND_TOLD, end + 1):
            rest = text[end + 1 :]
            deleted = "(deleted)"
            return text[1:end], rest[len(deleted) :] if rest.startswith(deleted) else rest
        end = text.find(">", end + 1)
    return None


def timed_of(line: str) -> Optional[tuple[int, str]]:
    """Returns the PID before a line, `PID ` or `[pid PID] `, and the text behind it."""
    plain = _PLAIN_PID.match(line)
    if plain:
        return int(plain[1]), line[plain.end() :].lstrip(WHITE_SPACE)
    if line.startswith("[pid "):
        process = described(line[len("[pid ") :].lstrip(WHITE_SPACE))
        if process is None or not process.rest.startswith("]"):
            return None
        rest = process.rest[1:]
    else:
        process = described(line)
        if process is None:
            return None
        rest = process.rest
    if not rest.startswith(" "):
        return None
    return process.number, rest.lstrip(WHITE_SPACE)


def behind_time(text: str) -> str:
    """Returns what stands behind the time that a text begins with, or the text.

    strace writes such times with -t, -tt, -ttt and -r.
    """
    word, blank, rest = text.lstrip(WHITE_SPACE).partition(" ")
    if not blank or not is_time(word):
        return text
    rest = rest.lstrip(WHITE_SPACE)
    if rest.startswith("(+"):
        _, bracket, behind = rest.partition(") ")
        return behind if bracket else rest
    return rest


def is_time(word: str) -> bool:
    """Tells whether a word is a time: of the day, since 1970, or since the line before."""
    return _TIME.fullmatch(word) is not None


def is_aside(text: str) -> bool:
    """Tells whether a line, or what it says, is nothing that a process does."""
    return not text or text.startswith(_ASIDE)


def said_in(text: str) -> Optional[Said]:
    """Returns what a line says behind the PID and the time, if it is understood."""
    if text.startswith("+++ "):
        return _end_in(text)
    if is_aside(text):
        return Aside()
    if text.startswith("<... "):
        _, resumed, rest = text.partition(" resumed>")
        returned = _returned(rest) if resumed else None
        return returned and Resumed(*returned)
    return _call_in(text)


def _end_in(text: str) -> Optional[Said]:
    if text.startswith(_SUPERSEDED):
        thread = number_in(text[len(_SUPERSEDED) :])
        return None if thread is None else Superseded(thread)
    how = text[len("+++ ") :]
    return Gone(how) if how.startswith(_ENDS) else Aside()


def _call_in(text: str) -> Optional[Said]:
    """Returns the call of a line. It did or did not return."""
    name, bracket, rest = text.partition("(")
    if not bracket or not _NAME.fullmatch(name):
        return None
    arguments = _unfinished(rest) if rest.endswith(" ...>") else None
    if arguments is not None:
        return Begun(name, arguments)
    returned = _returned(rest)
    return returned and Whole(name, *returned)


def _unfinished(text: str) -> Optional[str]:
    """Returns the arguments of a call that did not return yet.

    Where a thread executes a program, its call goes on as one of its process.
    """
    if text.endswith(_UNFINISHED):
        return text[: -len(_UNFINISHED)]
    arguments, changed, process = text[: -len(" ...>")].rpartition(" <pid changed to ")
    return arguments if changed and number_in(process) is not None else None


def _returned(text: str) -> Optional[tuple[str, str]]:
    """Returns the arguments in front of the last bracket, and what the call returned."""
    call, equals, gave = text.rpartition(" = ")
    call = call.rstrip(WHITE_SPACE)
    if not equals or not call.endswith(")"):
        return None
    return call[:-1], _without_duration(gave)


def _without_duration(gave: str) -> str:
    """Leaves out the time that the call took. strace writes it with -T."""
    if not gave.endswith(">"):
        return gave
    front, bracket, time = gave[:-1].rpartition(" <")
    return front if bracket and is_time(time) else gave
