"""Tests of the close trap, of when a lock goes, of cycles at any time, and of names."""

from __future__ import annotations

import contextlib
import io
import os
import tempfile
import unittest

from nuvatsimo import __main__ as tools
from nuvatsimo import program, traps
from nuvatsimo.names import Names, quoted

TRAP = """\
cluster nodes 1 files 1 policy wide
# file 1 is /home/ann/data.db
# process 1 of node 1 is sqlite3, PID 4711
call 1 1 spawn
call 1 1 open 1 rw
call 1 1 open 1 r
call 1 1 set 0 proc write 0 100
settle
call 1 1 close 1
call 1 1 set 0 proc write 5 1
call 1 1 close 0
"""
DEADLOCK = """\
cluster nodes 2 files 1 policy wide
call 1 1 spawn
call 1 1 open 1 rw
call 2 1 spawn
call 2 1 open 1 rw
call 1 1 set 0 desc write 0 1
settle
call 2 1 set 0 desc write 1 1
settle
call 1 1 wait 0 desc write 1 1
settle
call 2 1 wait 0 desc write 0 1
settle
"""


class Told(unittest.TestCase):
    def setUp(self) -> None:
        room = tempfile.TemporaryDirectory()
        self.addCleanup(room.cleanup)
        self.room = room.name

    def journal(self, script: str, name: str = "a.journal") -> str:
        """Runs a script, and returns the path of its journal."""
        path, journal = (os.path.join(self.room, it) for it in ("a.lock", name))
        with open(path, "w", encoding="utf-8") as file:
            file.write(script)
        program.checked(program.ask(["run", path, "--quiet", f"--journal={journal}"]))
        return journal

    def told(self, *words: str) -> list[str]:
        """Returns the lines that a command prints."""
        output = io.StringIO()
        with contextlib.redirect_stdout(output):
            self.assertEqual(tools.main(list(words)), 0)
        return output.getvalue().splitlines()

    def test_a_close_drops_a_lock(self) -> None:
        which = "1.1.4 (data.db, bytes 0 to 99)"
        told = f"this close drops the lock of {which}, which another descriptor had taken: POSIX\n"
        names = Names(TRAP.split("\n"))
        self.assertEqual(traps.warnings_of(TRAP, names), f"line 9: {told}")
        origins = list(range(100, 120))
        self.assertEqual(traps.warnings_of(TRAP, names, origins), f"line 108: {told}")
        self.assertEqual(traps.warnings_of(TRAP.replace(" proc ", " desc "), names), "")

    def test_a_set_says_when_its_lock_went(self) -> None:
        journal = self.journal(TRAP)
        story = self.told("explain", journal, "1.1.4")
        gone = "lock of file 1, bytes 0 to 99: dropped at entry 8 by 1.1.5: close 1"
        self.assertIn(f"{gone}, of another descriptor", story)
        table = os.path.join(self.room, "a.names")
        with open(table, "w", encoding="utf-8") as file:
            file.write("file 1 is /x/data.db\nprocess 1 of node 1 is sqlite3, PID 4711\n")
        story = self.told("explain", journal, "1.1.6")
        made = "process 1 of node 1 (sqlite3, PID 4711) calls: set 0 proc write 5 1"
        self.assertIn(f"entry 9: {made}", story)
        gone = "lock of file 1 (data.db), byte 5: dropped at entry 10 by 1.1.7: close 0"
        self.assertIn(gone, story)

    def test_cycles_through_descriptions(self) -> None:
        journal = self.journal(DEADLOCK)
        cycle = "1.1.4 waits for 2.1.4, 2.1.4 waits for 1.1.4"
        self.assertEqual(self.told("open", journal)[-1], f"cycle: {cycle}")
        ended = self.journal(f"{DEADLOCK}interrupt 2 1\nsettle\n")
        self.assertEqual([it for it in self.told("open", ended) if "cycle" in it], [])
        stood = self.told("open", ended, "--ever")[-1]
        other = "2.1.4 waits for 1.1.4, 1.1.4 waits for 2.1.4"
        self.assertRegex(stood, rf"^cycle from entry [0-9]+ to [0-9]+: {other}$")
        shared = DEADLOCK.replace("call 2 1 open 1 rw\n", "call 2 1 open 1 rw\ncall 2 1 fork 2\n")
        journal = self.journal(shared)
        possible = cycle.replace("2.1.4", "2.1.5")
        self.assertEqual(self.told("open", journal)[-1], f"possible cycle: {possible}")
        self.assertTrue(self.told("open", journal, "--ever")[-1].startswith("possible cycle since"))


class Tables(unittest.TestCase):
    def test_names(self) -> None:
        lines = ["# file 1 is /a/x", "file 2 is /b/x", "file 3 is c\x1b[2J", "file 4 was d"]
        names = Names([*lines, "process 1 of node 2 is sh, PID 9", "# process 1 of node 2 is PID 7"])
        self.assertEqual([names.file(at) for at in (1, 2, 3)], ["/a/x", "/b/x", "c\\x1b[2J"])
        self.assertEqual(names.numbered_file(4), "file 4")
        self.assertEqual(names.process(2, 1), "process 1 of node 2 (sh, PID 9, then PID 7)")
        self.assertEqual(names.owner("p1@2.1"), "sh, PID 9, then PID 7")
        self.assertIsNone(names.owner("d1@2.1"))

    def test_what_a_terminal_obeys_is_quoted(self) -> None:
        self.assertEqual(quoted("a\x1b\r\n\u202eü"), "a\\x1b\\r\\n\\u202eü")


if __name__ == "__main__":
    unittest.main()
