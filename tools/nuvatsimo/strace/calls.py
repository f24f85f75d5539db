"""Reads the arguments and the results of system calls, as strace writes them."""

from __future__ import annotations

import re
from functools import lru_cache
from typing import NamedTuple, Optional, Union

from nuvatsimo.strace.happenings import (
    NOT_UNDERSTOOD,
    NOTHING,
    RELATIVE,
    WHENCE,
    Closes,
    ClosesRange,
    Happening,
    LockCall,
    Unserved,
)
from nuvatsimo.strace.lines import Described, bracketed, described, number_in
from nuvatsimo.texts import GREATEST

FCNTLS = ("fcntl", "fcntl64")
OPENS = ("open", "openat", "openat2", "creat")
DUPS = ("dup", "dup2", "dup3")
FORKS = ("clone", "clone3", "fork", "vfork")
EXECS = ("execve", "execveat")
_MODES = {"F_RDLCK": "read", "F_WRLCK": "write", "F_UNLCK": None}
_SIGNED = re.compile("[+-]?[0-9]+")
_ANSWERS = {
    "ENOLCK": "no-locks",
    "EBADF": "bad-fd",
    "EINVAL": "invalid",
    "EOVERFLOW": "overflow",
}
_DENIED = ("EAGAIN", "EACCES")
# Programs make the same calls again and again, so what was read of the last ones is kept.
_kept = lru_cache(1 << 14)


class Refused(Exception):
    """A call can't be read. The reason is told of its line."""

    def __init__(self, reason: str) -> None:
        super().__init__(reason)
        self.reason = reason


class Sets(NamedTuple):
    """An `fcntl` call that sets a lock or none."""

    is_of_description: bool
    waits: bool


class Queries(NamedTuple):
    """An `fcntl` call that asks which lock is in the way."""

    is_of_description: bool


DUPLICATES = "duplicates"
MARKS = "marks"
OTHER = "other"
Command = Union[Sets, Queries, str]

_COMMANDS: dict[str, Command] = {
    "F_SETLK": Sets(False, False),
    "F_SETLKW": Sets(False, True),
    "F_OFD_SETLK": Sets(True, False),
    "F_OFD_SETLKW": Sets(True, True),
    "F_GETLK": Queries(False),
    "F_OFD_GETLK": Queries(True),
    "F_DUPFD": DUPLICATES,
    "F_DUPFD_CLOEXEC": DUPLICATES,
    "F_SETFD": MARKS,
}


def argument(arguments: str, place: int) -> Optional[str]:
    """Returns the argument of this place, from 0, of arguments with commas between them."""
    parts = arguments.split(", ", place + 1)
    return parts[place] if place < len(parts) else None


@_kept
def fcntl_in(arguments: str) -> Optional[tuple[Described, Command]]:
    """Returns the descriptor of an `fcntl` call, and what the call does with it."""
    file = described(arguments)
    if file is None:
        return None
    word = argument(file.rest, 1) or ""
    return file, _COMMANDS.get(word[:-2] if word.endswith("64") else word, OTHER)


def _field(structure: str, name: str) -> Optional[str]:
    """Returns the value of a field of a structure."""
    _, found, rest = structure.partition(name)
    if not found:
        return None
    return rest.partition(",")[0].partition("}")[0]


def _understood(structure: str, name: str) -> str:
    value = _field(structure, name)
    if value is None:
        raise Refused(NOT_UNDERSTOOD)
    return value


def _mode_in(structure: str) -> Optional[str]:
    """Returns the mode that `l_type` names, and None where that is F_UNLCK."""
    word = _understood(structure, "l_type=")
    if word not in _MODES:
        raise Refused(NOT_UNDERSTOOD)
    return _MODES[word]


def _offset(structure: str, name: str) -> int:
    """Returns the offset that a field is."""
    value = _understood(structure, name)
    if not _SIGNED.fullmatch(value):
        raise Refused(NOT_UNDERSTOOD)
    number = int(value) if len(value) < 1000 else _long_offset(value)
    if not -GREATEST - 1 <= number <= GREATEST:
        raise Refused(NOT_UNDERSTOOD)
    return number


def _long_offset(value: str) -> int:
    """Returns an offset that is written with very many digits."""
    sign = -1 if value.startswith("-") else 1
    return sign * int(value.lstrip("+-").lstrip("0")[:30] or "0")


@_kept
def set_in(command: Sets, structure: str) -> LockCall:
    """Returns the lock call that sets the lock of a `struct flock`."""
    mode = _mode_in(structure)
    wish = "unlock" if mode is None else "wait" if command.waits else "set"
    return _asked(command.is_of_description, wish, mode, structure)


@_kept
def query_in(command: Queries, structure: str) -> tuple[LockCall, str]:
    """Returns the lock call that asks what is in the way, and its answer.

    strace writes what was answered over what was asked. Where nothing was in the way, the mode is
    taken to be `read`, which fewer locks are in the way of, and else `write`.
    """
    mode = _mode_in(structure)
    wanted = "read" if mode is None else "write"
    asked = _asked(command.is_of_description, "query", wanted, structure)
    return asked, _found(asked, mode)


def _asked(is_of_description: bool, wish: str, mode: Optional[str], structure: str) -> LockCall:
    if _understood(structure, "l_whence=") != "SEEK_SET":
        raise Refused(WHENCE)
    start, length = _offset(structure, "l_start="), _offset(structure, "l_len=")
    return LockCall(is_of_description, wish, mode, start, length)


def _found(asked: LockCall, mode: Optional[str]) -> str:
    """Returns what a query answered, where it found a lock of this mode."""
    if mode is None:
        return "free"
    if mode == "read":
        return "blocked read"
    end = asked.start + asked.length
    last = GREATEST if asked.length == 0 else end - 1
    if asked.start < 0 or last < 0 or end > GREATEST:
        raise Refused(NOT_UNDERSTOOD)
    return f"blocked write {asked.start} {last}"


def holder_in(structure: str) -> Optional[int]:
    """Returns the PID of the process that F_GETLK says has the lock, where it says one."""
    value = _field(structure, "l_pid=")
    return value and number_in(value) or None


def error_in(gave: str) -> Optional[str]:
    """Returns the error that a call returned."""
    if gave.startswith("-1 "):
        return gave[3:].partition(" ")[0]
    return gave[2:].partition(" ")[0] if gave.startswith("? ") else None


def answer_in(wish: str, gave: str) -> Optional[str]:
    """Returns what a lock call answered that set a lock or none, as a reply of a script says it."""
    if gave == "0":
        return "done"
    error = error_in(gave)
    if wish == "set" and error in _DENIED:
        return "again"
    if wish == "wait" and error in ("EINTR", "ERESTARTSYS"):
        return "interrupted"
    return _ANSWERS.get(error or "")


def outcome_in(wish: str, gave: str) -> Optional[str]:
    """Returns what a lock call answered that set a lock or none, as a history says it."""
    if gave == "0":
        return "done"
    error = error_in(gave)
    if not error:
        return None
    if wish == "set" and error in _DENIED:
        return "again"
    if wish != "unlock" and (error == "EINTR" or error.startswith("ERESTART")):
        return "interrupted"
    return f"refused {as_word(error)}"


def is_given_up(gave: str) -> bool:
    """Tells whether a wait that returned this ended without its lock."""
    error = error_in(gave) or ""
    return error in ("EINTR", "EDEADLK") or error.startswith("ERESTART")


def close_in(arguments: str) -> Happening:
    """Returns what a `close` does."""
    fd = number_in(arguments)
    return Unserved(NOT_UNDERSTOOD) if fd is None else Closes(fd)


def range_in(arguments: str) -> Optional[tuple[int, int]]:
    """Returns the first descriptor and the last of a `close_range`."""
    first, behind = number_in(arguments), argument(arguments, 1)
    last = None if behind is None else number_in(behind)
    return None if first is None or last is None else (first, last)


def close_range_in(arguments: str) -> Happening:
    """Returns what a `close_range` does.

    With CLOSE_RANGE_CLOEXEC the descriptors stay until a program is executed.
    """
    if "CLOSE_RANGE_CLOEXEC" in arguments:
        return NOTHING
    ends = range_in(arguments)
    return ClosesRange(*ends) if ends else Unserved(NOT_UNDERSTOOD)


def gives_closing(arguments: str) -> bool:
    """Tells whether the descriptor that a call gives closes where a program is executed."""
    _, quote, flags = arguments.rpartition('"')
    if not quote:
        file = described(arguments)
        flags = file.rest if file else ""
    return "_CLOEXEC" in flags


def closing_in(name: str, arguments: str) -> Optional[bool]:
    """Returns whether a call says that its descriptor closes where a program is executed.

    It is None where the call says nothing of that.
    """
    if name in FCNTLS:
        file = described(arguments)
        if file is None or argument(file.rest, 1) != "F_SETFD":
            return None
        flags = argument(file.rest, 2)
        return None if flags is None else flags.startswith("FD_CLOEXEC")
    if name == "ioctl" and ", FIOCLEX" in arguments:
        return True
    return False if name == "ioctl" and ", FIONCLEX" in arguments else None


def open_in(name: str, arguments: str, told: Optional[str]) -> tuple[str, str]:
    """Returns the path that a call opens, and the access. A path that is told is that."""
    directory, rest = "AT_FDCWD", arguments
    if name in ("openat", "openat2"):
        directory, rest = _directory_in(arguments)
    path, flags = _quoted(rest)
    if told is not None:
        path = told
    elif not _is_whole(directory, path, flags):
        raise Refused(RELATIVE)
    return path, "w" if name == "creat" else _access_in(flags)


def program_in(arguments: str) -> Optional[str]:
    """Returns the last part of the path that an `execve` or `execveat` executes."""
    path = arguments.partition('"')[2].partition('"')[0]
    return path.rstrip("/").rpartition("/")[2] or None


def _directory_in(arguments: str) -> tuple[str, str]:
    """Returns the directory of an `openat` or `openat2`, and the arguments behind it."""
    found = re.search("[,<]", arguments)
    if found is None:
        raise Refused(NOT_UNDERSTOOD)
    directory, rest = arguments[: found.start()], arguments[found.start() :]
    inside = bracketed(rest)
    rest = inside[1] if inside else rest
    if not rest.startswith(", "):
        raise Refused(NOT_UNDERSTOOD)
    return directory, rest[2:]


def _quoted(text: str) -> tuple[str, str]:
    """Returns the text between quotation marks, and what stands behind it.

    A text with a quotation mark in it is not understood.
    """
    front, _, behind = text.partition('"')
    inside, mark, flags = behind.partition('"')
    if front or not mark or inside.endswith("\\"):
        raise Refused(NOT_UNDERSTOOD)
    return inside, flags


def _is_whole(directory: str, path: str, flags: str) -> bool:
    """Tells whether the path says the file, from the root or from the working directory."""
    if path.startswith("/"):
        return "RESOLVE_IN_ROOT" not in flags
    return directory.startswith("AT_FDCWD")


def _access_in(flags: str) -> str:
    for word, access in (("O_RDWR", "rw"), ("O_WRONLY", "w"), ("O_RDONLY", "r")):
        if word in flags:
            return access
    raise Refused(NOT_UNDERSTOOD)


_NO_WORD = re.compile("[ %\x00-\x1f\x7f]")


def as_word(text: str) -> str:
    """Returns a text as a word: blanks, control characters and `%` become `%` and two digits."""
    return _NO_WORD.sub(lambda found: f"%{ord(found[0]):02x}", text)
