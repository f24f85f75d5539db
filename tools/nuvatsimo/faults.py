"""How commands end: the exit statuses, and the lines on standard error."""

from __future__ import annotations

import errno
from typing import Optional

DONE = 0
NOT_SO = 1
WORDS_REFUSED = 2
BAD_INPUT = 3
TOO_MUCH = 4

_REASONS = {
    errno.ENOENT: "no such file",
    errno.EISDIR: "it is a directory",
    errno.ENOTDIR: "a part of the path is no directory",
    errno.EACCES: "permission denied",
    errno.EPERM: "permission denied",
    errno.ENOSPC: "no space left",
    errno.EDQUOT: "no space left",
    errno.EROFS: "the disk is read-only",
    errno.ENAMETOOLONG: "no file may have this name",
    errno.EINVAL: "no file may have this name",
    errno.ELOOP: "its links lead round in a circle",
    errno.ETXTBSY: "it is in use",
    errno.EBUSY: "it is in use",
    errno.ENOMEM: "no memory",
}


class Fault(Exception):
    """Ends a command. It carries the status, and what goes to the two outputs before the end."""

    def __init__(self, status: int, error: str = "", output: str = "") -> None:
        super().__init__(error or output)
        self.status = status
        self.error = error
        self.output = output


def line(status: int, text: str) -> Fault:
    """Returns a fault that tells one line on standard error."""
    return Fault(status, f"{text}\n")


def told(status: int, text: str) -> Fault:
    """Returns a fault that tells one line on standard output, as `no node 3, the last is 2`."""
    return Fault(status, output=f"{text}\n")


def no_call(name: str) -> Fault:
    """A journal has no call of that name."""
    return line(NOT_SO, f"no call {name}")


def bad_line(number: int) -> Fault:
    """Line `number` of a text may not stand there."""
    return line(BAD_INPUT, f"bad line {number}")


def cannot_read(name: str, reason: str) -> Fault:
    """A file can't be read. The reason is that of `reason_of`, or the place of a bad byte."""
    return line(BAD_INPUT, f"cannot read {name}: {reason}")


def cannot_write(name: str, reason: Optional[str] = None) -> Fault:
    """A file can't be written."""
    return line(BAD_INPUT, f"cannot write {name}" + (f": {reason}" if reason else ""))


def cannot_write_output() -> Fault:
    """Standard output failed."""
    return line(BAD_INPUT, "cannot write standard output")


def no_memory() -> Fault:
    """The system refused memory."""
    return line(TOO_MUCH, "no memory")


def journal_full() -> Fault:
    """A journal has, or would need, more entries than it may have."""
    return line(TOO_MUCH, "journal full")


def reason_of(error: OSError) -> str:
    """Says why the system refused a file."""
    return _REASONS.get(error.errno or 0, "the system refuses it")


def place_of_bad_byte(text: bytes) -> Optional[str]:
    """Says where a text stops being UTF-8, as `not UTF-8 at line 2, column 5`."""
    try:
        text.decode("utf-8")
    except UnicodeDecodeError as error:
        before = text[: error.start]
        number = before.count(b"\n") + 1
        column = len(before[before.rfind(b"\n") + 1 :].decode("utf-8")) + 1
        return f"not UTF-8 at line {number}, column {column}"
    return None
