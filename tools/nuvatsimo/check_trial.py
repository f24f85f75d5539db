"""Tries whether a journal could be written to a file, and leaves none there."""

from __future__ import annotations

import errno
import os
import stat
from typing import Optional

from nuvatsimo import faults

# How many names are tried for a file beside another.
_NAMES = 16

# What is written to a file that is only a trial.
_BLOCK = b"\n" * 4096


def refusal_of(path: str) -> Optional[faults.Fault]:
    """Returns the fault of a file to which no journal could be written, or None."""
    try:
        _try(path)
    except OSError as error:
        if error.errno == errno.ENOENT:
            return faults.cannot_write(path, "no such folder")
        if error.errno == errno.EFBIG:
            error = OSError(errno.ENOSPC, "")
        return faults.cannot_write(path, faults.reason_of(error))
    return None


def _try(path: str) -> None:
    """Writes a file beside that of the path, or tries it in its place where none goes there."""
    try:
        old: Optional[os.stat_result] = os.lstat(path)
    except FileNotFoundError:
        old = None
    except OSError:
        return _try_in_place(path)
    if old and not (stat.S_ISREG(old.st_mode) and old.st_mode & 0o222):
        return _try_in_place(path)
    beside = _made_beside(path)
    if beside is None:
        return _try_in_place(path)
    name, number = beside
    try:
        with open(number, "wb") as file:
            if old:
                os.fchmod(number, stat.S_IMODE(old.st_mode))
            file.write(_BLOCK)
    finally:
        _remove(name)
    return None


def _made_beside(path: str) -> Optional[tuple[str, int]]:
    """Makes a new file beside that of the path. None is made where no name is free for it."""
    for number in range(1, _NAMES + 1):
        name = f"{path}.new{number}"
        try:
            return name, _made(name)
        except FileExistsError:
            continue
        except OSError:
            return None
    return None


def _made(path: str) -> int:
    return os.open(path, os.O_WRONLY | os.O_CREAT | os.O_EXCL | os.O_CLOEXEC, 0o666)


def _try_in_place(path: str) -> None:
    """Opens a file that is there, or makes one for a moment. Devices are not opened."""
    try:
        mode = os.stat(path).st_mode
    except FileNotFoundError:
        return _make_once(path)
    if stat.S_ISDIR(mode):
        raise IsADirectoryError(errno.EISDIR, "")
    if stat.S_ISREG(mode):
        os.close(os.open(path, os.O_WRONLY | os.O_CLOEXEC))
    return None


def _make_once(path: str) -> None:
    """Makes a file where none is, and removes it. A link to nothing is left as it is."""
    try:
        number = _made(path)
    except FileExistsError:
        return
    try:
        with open(number, "wb") as file:
            file.write(_BLOCK)
    finally:
        _remove(path)


def _remove(path: str) -> None:
    try:
        os.unlink(path)
    except OSError:
        pass
