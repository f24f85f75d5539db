"""Tests of the reader of journals: what it refuses, and by which line."""

from __future__ import annotations

import os
import tempfile
import unittest
from unittest import mock

from nuvatsimo import faults, journal

GOOD = """\
journal 2 nodes 2 files 1 policy wide
entry 1 call 1.1.1 1 spawn
reply 1.1.1 done
entry 2 call 1.1.2 1 open 1 rw
reply 1.1.2 fd 0
entry 3 call 1.1.3 1 set 0 proc write 0 100
send request 1 1.1.3 now write 0 99 0 9223372036854775807
entry 4 fail-server 1.1
entry 5 start-server 1.1
send hello 1 2 1.1
send hello 1 2 2.1
entry 6 deliver report 1 2 1.1 2 shared 0 9 exclusive 10 20
end 6
"""


def refusal(text: bytes) -> str:
    """Returns the line by which a text is refused, or nothing."""
    with tempfile.NamedTemporaryFile() as file:
        file.write(text)
        file.flush()
        try:
            with journal.opened(file.name) as source:
                for _ in source.entries():
                    pass
        except faults.Fault as fault:
            return fault.error.replace(file.name, "FILE").rstrip("\n")
    return ""


class Refusals(unittest.TestCase):
    """Each is a good journal with one change."""

    def changed(self, old: str, new: str) -> str:
        self.assertIn(old, GOOD)
        return refusal(GOOD.replace(old, new, 1).encode())

    def test_good(self) -> None:
        self.assertEqual("", refusal(GOOD.encode()))

    def test_numbers(self) -> None:
        for old, new, line in (
            ("nodes 2", "nodes 65", 1),
            ("nodes 2", "nodes 02", 1),
            ("entry 2", "entry 3", 4),
            ("fd 0", "fd 256", 5),
            ("write 0 100", "write -0 100", 6),
            ("write 0 100", "write 0 9223372036854775808", 6),
            ("fail-server 1.1", "fail-server 1.65536", 8),
            ("end 6", "end 7", 13),
        ):
            with self.subTest(new=new):
                self.assertEqual(f"bad line {line}", self.changed(old, new))

    def test_spans(self) -> None:
        for old, new, line in (
            ("write 0 99 0 9", "write 99 0 0 9", 7),
            ("write 0 99 0 9223372036854775807", "write 0 99 1 200", 7),
            ("exclusive 10 20", "shared 10 20", 12),
            ("exclusive 10 20", "exclusive 9 20", 12),
            ("1.1 2 shared", "1.1 3 shared", 12),
        ):
            with self.subTest(new=new):
                self.assertEqual(f"bad line {line}", self.changed(old, new))

    def test_order(self) -> None:
        self.assertEqual("bad line 4", self.changed("entry 2", "reply 1.1.1 done\nentry 2"))
        self.assertEqual("bad line 8", self.changed("entry 4", "reply 1.1.3 done\nentry 4"))
        self.assertEqual("bad line 13", self.changed("end 6\n", ""))
        self.assertEqual("bad line 14", self.changed("end 6\n", "end 6\n\n"))
        self.assertEqual("bad line 13", self.changed("end 6\n", "end 6"))

    def test_versions(self) -> None:
        self.assertEqual("bad line 8", self.changed("journal 2", "journal 1"))
        self.assertEqual("bad line 1", self.changed("journal 2", "journal 3"))
        self.assertEqual("bad line 10", self.changed("hello 1 2 1.1", "hello 1 1 1.1"))

    def test_not_utf_8_comes_before_a_bad_line(self) -> None:
        text = b"journal 9\nx\xc3\xa9\xff\n"
        self.assertEqual("cannot read FILE: not UTF-8 at line 2, column 3", refusal(text))
        self.assertEqual("bad line 1", refusal(b"journal 9\nx\xc3\xa9\n"))
        self.assertEqual("bad line 1", refusal(b""))

    def test_full(self) -> None:
        head = "journal 2 nodes 1 files 1 policy wide\n"
        lines = "".join(f"entry {at} resend 1\n" for at in range(1, 5))
        text = f"{head}{lines}end 4\n".encode()
        with mock.patch.object(journal, "MOST_ENTRIES", 3):
            self.assertEqual("journal full", refusal(text))
            self.assertEqual("bad line 7", refusal(text + b"x\n"))
        self.assertEqual("", refusal(text))


class Entries(unittest.TestCase):
    """What an entry has."""

    def test_parts(self) -> None:
        with tempfile.TemporaryDirectory() as room:
            path = os.path.join(room, "a.journal")
            with open(path, "w", encoding="utf-8") as file:
                file.write(GOOD)
            with journal.opened(path) as source:
                entries = list(source.entries())
        self.assertEqual(journal.Head(2, 2, 1, "wide"), source.head)
        self.assertEqual([2, 4, 6, 8, 9, 12], [entry.line for entry in entries])
        self.assertEqual(("1.1.2", "fd 0"), (entries[1].answered, entries[1].reply))
        self.assertEqual("1.1.3", entries[2].made)
        self.assertEqual(["hello 1 2 1.1", "hello 1 2 2.1"], entries[4].sends)
        self.assertEqual("report 1 2 1.1 2 shared 0 9 exclusive 10 20", entries[5].comes)

    def test_missing(self) -> None:
        with self.assertRaises(faults.Fault) as caught:
            with journal.opened("/no/such/file"):
                self.fail("there is no such file")
        self.assertEqual("cannot read /no/such/file: no such file\n", caught.exception.error)


if __name__ == "__main__":
    unittest.main()
