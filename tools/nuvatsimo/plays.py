"""Plays scripts by the program, and tells what each of their lines makes."""

from __future__ import annotations

import subprocess
import tempfile
from collections.abc import Iterable, Iterator
from typing import BinaryIO, Optional

from nuvatsimo import program
from nuvatsimo.journal import Entry, entries_of
from nuvatsimo.scripts import is_skipped, numbered_lines


class Play:
    """A run of a good script. `refused` has by its lines the codes of those that were refused.

    The journal of the run is kept in a file, if one is given. Where the program ends early, so
    does all of this.
    """

    def __init__(self, script: str, kept: Optional[BinaryIO] = None) -> None:
        self.refused: dict[int, int] = {}
        self._script = script
        self._kept = kept
        self._line = 0

    def entries(self) -> Iterator[tuple[int, Entry]]:
        """Yields each entry, with the number of the line that makes it."""
        with tempfile.TemporaryFile() as given:
            given.write(self._script.encode())
            given.seek(0)
            words = [program.path(), "play"]
            with subprocess.Popen(words, stdin=given, stdout=subprocess.PIPE) as playing:
                for entry in entries_of(self._lines(playing.stdout or ())):
                    yield self._line, entry

    def to_its_end(self) -> None:
        """Plays all lines."""
        for _ in self.entries():
            pass

    def _lines(self, output: Iterable[bytes]) -> Iterator[str]:
        """Yields the lines of entries, and `end K` behind those of each line of the script.

        The last `end K` ends the journal that is kept.
        """
        answers, end = iter(output), b"end 0\n"
        for self._line, command, _ in numbered_lines(self._script):
            for answer in () if is_skipped(command) else self._answer(answers, command):
                is_end = answer.startswith(b"end ")
                end = answer if is_end else end
                if self._kept is not None and not is_end:
                    self._kept.write(answer)
                if not answer.startswith(b"journal "):
                    yield answer.decode("ascii")
        if self._kept is not None:
            self._kept.write(end)

    def _answer(self, answers: Iterator[bytes], command: str) -> Iterator[bytes]:
        """Yields the lines of the answer to a line, without the codes of what is refused."""
        for answer in answers:
            if not answer.startswith(b"refused "):
                yield answer
            elif command != "settle":
                self.refused[self._line] = int(answer[8:])
                return
            if answer.startswith(b"end "):
                return
