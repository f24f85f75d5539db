"""Tries `from-strace` on small recordings, and its readings of odd lines and numbers."""

from __future__ import annotations

import contextlib
import io
import os
import tempfile
import unittest
from typing import NamedTuple

from nuvatsimo import __main__ as tools
from nuvatsimo.strace import calls, lines, main
from nuvatsimo.strace.history import is_segment
from nuvatsimo.strace.happenings import LockCall, Notes
from nuvatsimo.strace.processes import MOST_PROCESSES, ScriptProcesses, Threads
from nuvatsimo.strace.reader import events_of, is_recording
from nuvatsimo.strace.times import LineTimes

TOP = os.path.join(os.path.dirname(os.path.abspath(__file__)), "..", "..")
RECORDINGS = os.path.join(TOP, "tests", "golden", "recordings", "recordings.txt")


class Case(NamedTuple):
    """A recording, the words behind the command, and what they print, with marks in front."""

    name: str
    recording: str
    words: list[str]
    printed: list[str]


def cases_of(path: str) -> list[Case]:
    """Reads cases: blocks that begin with `= NAME`, then the recording, then its commands.

    Lines of the recording stand behind `< `, a command behind `$ `, and below it its status
    behind `? `, and the lines of both outputs behind `| ` and `! `.
    """
    name, recording, cases = "", "", []
    with open(path, encoding="utf-8", newline="\n") as file:
        for line in file.read().split("\n")[:-1]:
            mark, text = line[:2], line[2:]
            if mark == "= ":
                name, recording = text, ""
            elif mark == "< ":
                recording += f"{text}\n"
            elif mark == "$ ":
                cases.append(Case(name, recording, text.split(" "), []))
            else:
                cases[-1].printed.append(line)
    return cases


def printed(words: list[str]) -> list[str]:
    """Runs the command, and returns what it prints, with marks in front."""
    output, error = io.StringIO(), io.StringIO()
    with contextlib.redirect_stdout(output), contextlib.redirect_stderr(error):
        status = tools.main(["from-strace", *words])
    told = [f"? {status}"]
    for mark, text in (("|", output.getvalue()), ("!", error.getvalue())):
        told += [f"{mark} {line}" for line in text.split("\n")[:-1]]
    return told


class Recordings(unittest.TestCase):
    def test_recordings_print_what_they_did(self) -> None:
        before = os.getcwd()
        self.addCleanup(os.chdir, before)
        cases = cases_of(RECORDINGS)
        self.assertGreater(len(cases), 60)
        with tempfile.TemporaryDirectory() as room:
            os.chdir(room)
            for case in cases:
                with open("recording.strace", "w", encoding="utf-8", newline="\n") as file:
                    file.write(case.recording)
                with self.subTest(f"{case.name}: {' '.join(case.words)}"):
                    self.assertEqual(printed(case.words), case.printed)
            os.chdir(before)


class Lines(unittest.TestCase):
    def test_line_feeds_alone_end_lines(self) -> None:
        text = "a\r\n\n\r\r\nb\x85\u2028c\nd\r"
        self.assertEqual(list(lines.lines_of(text)), ["a", "", "\r", "b\x85\u2028c", "d\r"])
        self.assertEqual(list(lines.lines_of("a\n")), ["a"])
        self.assertEqual(list(lines.lines_of("")), [])

    def test_numbers_have_32_bits(self) -> None:
        self.assertEqual(lines.number_in("4294967295 x"), 4294967295)
        self.assertEqual(lines.number_in("0" * 5000 + "7"), 7)
        for text in ("4294967296", "9" * 5000, "", "x", "-1", "\u0663"):
            self.assertIsNone(lines.number_in(text))

    def test_brackets_may_stand_in_brackets(self) -> None:
        self.assertEqual(lines.bracketed("</dev/tty<char 5:0>>, x"), ("/dev/tty<char 5:0>", ", x"))
        self.assertEqual(lines.bracketed("</a>(deleted))"), ("/a", ")"))
        self.assertIsNone(lines.bracketed("<a>b"))
        self.assertIsNone(lines.bracketed("a>"))

    def test_pids_and_times_stand_before_calls(self) -> None:
        for line in ("10 12:00:01 (+ 0.5) dup(3) = 4", "[pid   10<x>] 1.5 dup(3) = 4"):
            pid, rest = lines.timed_of(line) or (0, "")
            self.assertEqual((pid, lines.behind_time(rest)), (10, "dup(3) = 4"))
        for line in ("4294967296 dup(3) = 4", "10dup(3) = 4", "[pid 10 dup(3) = 4", ""):
            self.assertIsNone(lines.timed_of(line))

    def test_what_lines_say(self) -> None:
        self.assertEqual(lines.said_in("dup(3)  = 4 <0.5>"), lines.Whole("dup", "3", "4"))
        self.assertEqual(lines.said_in("dup(3 <unfinished ...>"), lines.Begun("dup", "3"))
        self.assertEqual(
            lines.said_in("execve(1 <pid changed to 7 ...>"), lines.Begun("execve", "1")
        )
        self.assertEqual(lines.said_in("<... dup resumed>) = 4"), lines.Resumed("", "4"))
        self.assertEqual(lines.said_in("+++ killed by X +++"), lines.Gone("killed by X +++"))
        self.assertEqual(lines.said_in("+++ other"), lines.Aside())
        for text in ("dup(3)", "(3) = 4", "d p(3) = 4", "<... dup) = 4", "x"):
            self.assertIsNone(lines.said_in(text))


    def test_what_is_no_recording(self) -> None:
        self.assertTrue(is_recording(""))
        self.assertTrue(is_recording('x\n5 openat(AT_FDCWD, "x", O_RDWR) = 3\n'))
        self.assertTrue(is_recording('openat(AT_FDCWD, "x", O_RDWR) = 3\n'))
        self.assertTrue(is_recording("5 +++ exited with 0 +++\n"))
        self.assertFalse(is_recording("cluster nodes 1 files 1 policy wide\ncall 1 1 spawn\n"))


class Calls(unittest.TestCase):
    def test_offsets_have_64_bits(self) -> None:
        flock = "{{l_type=F_RDLCK, l_whence=SEEK_SET, l_start={}, l_len={}}}"
        asked = calls.set_in(calls.Sets(False, True), flock.format("+5", -(2**63)))
        self.assertEqual(asked, LockCall(False, "wait", "read", 5, -(2**63)))
        for start in (2**63, "9" * 5000, " 1", "1_0", ""):
            with self.assertRaises(calls.Refused):
                calls.set_in(calls.Sets(False, True), flock.format(start, 0))

    def test_a_segment_lies_in_a_file(self) -> None:
        def is_good(start: int, length: int) -> bool:
            return is_segment(LockCall(False, "set", "read", start, length))

        self.assertTrue(is_good(2**63 - 1, 1) and is_good(2**63 - 1, 0) and is_good(3, -3))
        self.assertFalse(is_good(2**63 - 1, 2) or is_good(-1, 0) or is_good(3, -4))


class Processes(unittest.TestCase):
    def test_the_lowest_free_process_begins(self) -> None:
        processes = ScriptProcesses()
        for pid in range(MOST_PROCESSES):
            processes.begin(pid, processes.free_place(1))
        self.assertIsNone(processes.free_place(1))
        self.assertEqual(processes.end(6), (1, 7))
        self.assertEqual(processes.free_place(1), (1, 7))
        self.assertIsNone(processes.end(6))

    def test_threads_go_with_their_process(self) -> None:
        threads = Threads()
        threads.add(11, 10)
        threads.add(12, 10)
        threads.remove(12)
        self.assertEqual((threads.process_of(11), threads.process_of(12)), (10, 12))
        threads.remove_of(10)
        self.assertNotIn(11, threads)


class Recorded(unittest.TestCase):
    def test_events_keep_their_order(self) -> None:
        text = "1 fork( <unfinished ...>\n2 close(3) = 0\n1 <... fork resumed>) = 2\n"
        self.assertEqual([event.line for event in events_of(text)], [1, 2])

    def test_times_of_calls(self) -> None:
        second = 1795868855 * 10**9
        text = "1 1795868855.1 a() = 0 <0.01>\n+++ x\n1 1795868855.500 b() = 0\n"
        times = LineTimes(text)
        self.assertEqual((times.cut(), times.are_fine()), (10**8 - 1, False))
        self.assertEqual(times.at(2), second + 5 * 10**8)
        self.assertEqual(times.end(1, 1, 1000), second + 5 * 10**8 - 1000)
        self.assertEqual(times.end(1, 3, 1000), second + 5 * 10**8)
        self.assertIsNone(times.end(3, 3, 1000))

    def test_a_hundred_notes_are_told(self) -> None:
        notes = Notes()
        for line in range(103):
            notes.add(line, "x")
        self.assertEqual(notes.text().count("\n"), 101)
        self.assertTrue(notes.text().endswith("more notes: 3\n"))

    def test_the_first_placing_counts(self) -> None:
        self.assertEqual(main.COMMAND.name, "from-strace")
        self.assertEqual(main._placings_in("7=2,7=1,4294967295=64"), {7: 2, 4294967295: 64})
        self.assertEqual(main._placings_in(None), {})


if __name__ == "__main__":
    unittest.main()
