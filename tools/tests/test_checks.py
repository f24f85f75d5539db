"""Holds `check` and `audit --why` to what is known of damaged scripts and journals."""

from __future__ import annotations

import contextlib
import io
import os
import re
import tempfile
import unittest
from typing import NamedTuple

from nuvatsimo import __main__ as tools
from nuvatsimo.check_hints import distance, nearest

GOLDEN = os.path.join(
    os.path.dirname(os.path.realpath(__file__)), "..", "..", "tests", "golden"
)
ESCAPE = re.compile(r"\\(\\|c|x[0-9a-f]{2})")


class Case(NamedTuple):
    """The words of a command, the text of the file `damaged`, and the lines that have to come."""

    words: list[str]
    given: list[str]
    wanted: list[str]


def cases_in(name: str) -> list[Case]:
    """Reads the cases of a file of damaged texts."""
    cases: list[Case] = []
    with open(os.path.join(GOLDEN, name), encoding="utf-8", newline="\n") as file:
        for line in file.read().split("\n")[:-1]:
            if line.startswith("$ "):
                cases.append(Case(line[2:].split(" "), [], []))
            elif line.startswith("> "):
                cases[-1].given.append(line[2:])
            elif cases:
                cases[-1].wanted.append(line)
    return cases


def bytes_of(lines: list[str]) -> bytes:
    """Returns the text that lines with escapes stand for."""

    def unescaped(found: re.Match[str]) -> str:
        mark = found[1]
        return {"\\": "\\", "c": ""}.get(mark) if mark in "\\c" else chr(int(mark[1:], 16))

    is_unended = bool(lines) and lines[-1].endswith("\\c")
    text = "".join(f"{ESCAPE.sub(unescaped, line)}\n" for line in lines)
    return (text[:-1] if is_unended else text).encode("latin-1")


def came_of(words: list[str]) -> list[str]:
    """Runs a command, and returns its status and what it prints, in lines."""
    output, error = io.StringIO(), io.StringIO()
    with contextlib.redirect_stdout(output), contextlib.redirect_stderr(error):
        status = tools.main(words)
    lines = [f"| {line}" for line in output.getvalue().split("\n")[:-1]]
    return [f"? {status}", *lines, *(f"! {line}" for line in error.getvalue().split("\n")[:-1])]


class DamagedTexts(unittest.TestCase):
    def hold(self, name: str) -> None:
        before = os.getcwd()
        with tempfile.TemporaryDirectory() as room:
            os.chdir(room)
            try:
                for case in cases_in(name):
                    with open("damaged", "wb") as file:
                        file.write(bytes_of(case.given))
                    self.assertEqual(came_of(case.words), case.wanted, case.given)
            finally:
                os.chdir(before)

    def test_scripts(self) -> None:
        self.hold("damaged-scripts.txt")

    @unittest.skipUnless(os.environ.get("LOCKREPLAY_PROGRAM"), "no program is named")
    def test_journals(self) -> None:
        self.hold("damaged-journals.txt")


class Hints(unittest.TestCase):
    def test_distance(self) -> None:
        for one, other, wanted in (
            ("", "", 0), ("", "set", 3), ("set", "", 3), ("spwan", "spawn", 1), ("ca", "abc", 3),
            ("wirte", "write", 1), ("kitten", "sitting", 3), ("settel", "settle", 1),
        ):  # fmt: skip
            self.assertEqual(distance(one, other), wanted, (one, other))

    def test_nearest(self) -> None:
        words = ("settle", "call", "deliver")
        for word, wanted in (("SETTLE", "settle"), ("cal", "call"), ("x", None), ("", None)):
            self.assertEqual(nearest(word, words), wanted)
        self.assertIsNone(nearest("settle" + "x" * 40, words))


if __name__ == "__main__":
    unittest.main()
