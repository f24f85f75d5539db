"""Tests of the door: what it says where a text is of another kind than the command reads."""

from __future__ import annotations

import os
import subprocess
import tempfile
import unittest

TOP = os.path.join(os.path.dirname(os.path.realpath(__file__)), "..", "..")
SCRIPT = "cluster nodes 1 files 1 policy wide\ncall 1 1 spawn\n"
JOURNAL = "journal 1 nodes 1 files 1 policy wide\nentry 1 call 1.1.1 1 spawn\nreply 1.1.1 done\nend 1\n"
HISTORY = "# A comment.\n\nhistory 1 clock ns\n"
RECORDING = '10 1.5 openat(AT_FDCWD, "x", O_RDWR) = 3\n'


class Hints(unittest.TestCase):
    """Each hint names the text and one command."""

    def setUp(self) -> None:
        room = tempfile.TemporaryDirectory()
        self.addCleanup(room.cleanup)
        self.room = room.name

    def hint(self, text: str, *words: str) -> str:
        """Returns what the door says of a file with this text, which stands for `FILE`."""
        path = os.path.join(self.room, "it")
        with open(path, "w", encoding="utf-8", newline="") as file:
            file.write(text)
        ran = subprocess.run(
            [os.path.join(TOP, "tools", "lockreplay"), *(path if it == "FILE" else it for it in words)],
            stdin=subprocess.DEVNULL,
            capture_output=True,
            check=False,
        )
        said = [line for line in ran.stderr.decode().splitlines() if line.startswith("lockreplay: ")]
        return "\n".join(said).replace(path, "FILE")

    def test_a_script(self) -> None:
        told = "lockreplay: FILE is a lock script; "
        makes = told + "this makes its journal: lockreplay run FILE --quiet --journal FILE"
        runs = told + "this runs it: lockreplay run FILE"
        self.assertEqual(makes, self.hint(SCRIPT, "audit", "FILE"))
        self.assertEqual(makes, self.hint(SCRIPT, "state", "--at", "1", "FILE"))
        self.assertEqual(makes, self.hint(SCRIPT, "explain", "FILE", "1.1.1"))
        self.assertEqual(runs, self.hint(SCRIPT, "judge", "FILE"))
        self.assertEqual(runs, self.hint(SCRIPT, "from-strace", "FILE"))

    def test_a_journal(self) -> None:
        told = "lockreplay: FILE is a journal; "
        says = told + "this says whether it is one of a run: lockreplay audit FILE"
        makes = told + "this makes a history of it: lockreplay history FILE --as-clients"
        self.assertEqual(says, self.hint(JOURNAL, "run", "FILE"))
        self.assertEqual(says, self.hint(JOURNAL, "threads", "--seed=2", "FILE"))
        self.assertEqual(makes, self.hint(JOURNAL, "judge", "--steps", "10", "FILE"))

    def test_a_history_and_a_recording(self) -> None:
        judges = "lockreplay: FILE is a history of clients; this judges it: lockreplay judge FILE"
        self.assertEqual(judges, self.hint(HISTORY, "run", "FILE"))
        told = "lockreplay: FILE is a recording of strace; "
        makes = told + "this makes a script of it: lockreplay from-strace FILE"
        self.assertEqual(makes, self.hint(RECORDING, "check", "FILE"))
        makes = told + "this makes a history of it: lockreplay from-strace --history FILE"
        self.assertEqual(makes, self.hint(RECORDING, "judge", "FILE"))

    def test_line_ends(self) -> None:
        ends = "lockreplay: the lines of FILE end with CR LF; this ends them with LF: "
        ends += "tr -d '\\r' <FILE >FILE"
        self.assertEqual(ends, self.hint(SCRIPT.replace("\n", "\r\n"), "run", "FILE"))

    def test_no_hint(self) -> None:
        """A text of the kind that the command reads, one of no kind, and the value of an option."""
        self.assertEqual("", self.hint(SCRIPT, "run", "FILE"))
        self.assertEqual("", self.hint(SCRIPT, "check", "FILE"))
        self.assertEqual("", self.hint(JOURNAL, "check", "FILE"))
        self.assertEqual("", self.hint(JOURNAL, "audit", "FILE"))
        self.assertEqual("", self.hint(HISTORY, "judge", "FILE"))
        self.assertEqual("", self.hint(RECORDING, "from-strace", "FILE"))
        self.assertEqual("", self.hint("", "run", "FILE"))
        self.assertEqual("", self.hint("call 1 1 spawn\n", "run", "FILE"))
        self.assertEqual("", self.hint(JOURNAL, "run", "--after", "FILE", "missing.lock"))


if __name__ == "__main__":
    unittest.main()
