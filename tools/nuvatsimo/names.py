"""The names of files and processes, from a table beside a journal.

A table has lines as `file 1 is /home/ann/data.db` and `process 1 of node 1 is sqlite3, PID 4711`.
They may stand behind `# `, as in a script of `from-strace`; other lines are passed over.
"""

from __future__ import annotations

import os
import re
from collections.abc import Iterable
from typing import Optional

from nuvatsimo import faults
from nuvatsimo.texts import node_of
from nuvatsimo.words import Option

OPTION = Option("--names", "Show the names of files and processes that TABLE has", "TABLE")
_FILE = re.compile(r"(?:# )?file ([1-9][0-9]{0,2}) is (.+)")
_PROCESS = re.compile(r"(?:# )?process ([1-9][0-9]{0,2}) of node ([1-9][0-9]?) is (.+)")
_OBEYED = re.compile("[\x00-\x1f\x7f-\x9f\u2028\u2029\u202a-\u202e\u2066-\u2069]")
# So many names of one process are shown.
_MOST = 3


def quoted(text: str) -> str:
    """Returns a text with what a terminal would obey as `\\x1b`."""
    return _OBEYED.sub(lambda found: ascii(found[0])[1:-1], text)


class Names:
    """What files and processes are called. Without a table they have their numbers."""

    def __init__(self, lines: Iterable[str] = ()) -> None:
        self._paths: dict[int, str] = {}
        self._processes: dict[tuple[int, int], list[str]] = {}
        for line in lines:
            self._take(line)

    def _take(self, line: str) -> None:
        file, process = _FILE.fullmatch(line), _PROCESS.fullmatch(line)
        if file:
            self._paths.setdefault(int(file[1]), quoted(file[2]))
        elif process:
            of_process = self._processes.setdefault((int(process[2]), int(process[1])), [])
            if quoted(process[3]) not in of_process:
                of_process.append(quoted(process[3]))

    def of_file(self, number: int) -> Optional[str]:
        """Returns the last part of a file's path, or all of it where another file has that too."""
        path = self._paths.get(number)
        if path is None:
            return None
        last = path.rstrip("/").rpartition("/")[2] or path
        ends = [other.rstrip("/").rpartition("/")[2] for other in self._paths.values()]
        return last if ends.count(last) == 1 else path

    def file(self, number: int) -> str:
        """Returns what a file is called where its number isn't needed."""
        return self.of_file(number) or f"file {number}"

    def numbered_file(self, number: int) -> str:
        """Returns the number of a file, and its name if it has one."""
        name = self.of_file(number)
        return f"file {number}" + (f" ({name})" if name else "")

    def of_process(self, node: int, number: int) -> Optional[str]:
        """Returns what a process is called. Its number may name several, one after the other."""
        found = self._processes.get((node, number))
        if not found:
            return None
        return ", then ".join(found[:_MOST]) + (", .." if len(found) > _MOST else "")

    def process(self, node: int, number: int) -> str:
        """Returns the numbers of a process, and its name if it has one."""
        name = self.of_process(node, number)
        return f"process {number} of node {node}" + (f" ({name})" if name else "")

    def owner(self, owner: str) -> Optional[str]:
        """Returns what an owner as `p1@2.1` is called. A description has no name."""
        number, _, host = owner.partition("@")
        return self.of_process(node_of(host), int(number[1:])) if number[0] == "p" else None


def names_of(journal: str, table: Optional[str]) -> Names:
    """Reads the names of a table, or of NAME.names beside NAME.journal, if there is such a file."""
    if table is None:
        front, end = os.path.splitext(journal)
        table = f"{front}.names"
        if end != ".journal" or not os.path.isfile(table):
            return Names()
    try:
        with open("/dev/stdin" if table == "-" else table, encoding="utf-8", newline="\n") as file:
            return Names(line.rstrip("\r\n") for line in file)
    except OSError as error:
        raise faults.cannot_read(table, faults.reason_of(error)) from None
    except ValueError:
        raise faults.cannot_read(table, "it is no text") from None
