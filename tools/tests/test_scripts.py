"""Holds the reader of lock scripts to the program, by damaged scripts of a fixed seed."""

from __future__ import annotations

import concurrent.futures
import glob
import os
import random
import subprocess
import unittest
from typing import Optional

from nuvatsimo import faults, scripts

PROGRAM = os.environ.get("LOCKREPLAY_PROGRAM")
TOP = os.path.join(os.path.dirname(os.path.realpath(__file__)), "..", "..")
COUNT = 2000
THREADS = 3
SECONDS = 60

# What a word is replaced by.
WORDS = (
    "", "0", "1", "01", "+1", "-0", "-1", "-01", "00", "63", "64", "65", "255", "256", "257",
    "65535", "65536", "4294967295", "4294967296", "9223372036854775807", "9223372036854775808",
    "-9223372036854775808", "-9223372036854775809", "18446744073709551616", "1" * 30, "1" * 5000,
    "0x1", "1_0", "1.0", "١", "²", "é", "proc", "desc", "read", "write", "r", "w", "rw", "wide",
    "exact", "nodes", "files", "policy", "cluster", "spawn", "exit", "set", "wait", "unlock",
    "query", "fork", "open", "dup", "close", "CALL", "settle", "#",
)  # fmt: skip

# What a line is replaced by, or put before one.
LINES = (
    "", "#", "# a remark", " # a remark", "settle", "settle ", " settle", "settle\r", "\r", " ",
    "cluster nodes 2 files 1 policy wide", "cluster nodes 64 files 256 policy exact",
    "cluster nodes 65 files 1 policy wide", "cluster nodes 1 files 257 policy wide",
    "cluster nodes 0 files 1 policy wide", "cluster nodes 1 files 1 policy", "\ufeffsettle",
    "call 64 256 fork 256", "call 1 1 close 255", "call 1 1 close 256", "call 1 1 open 256 rw",
    "call 1 1 set 0 proc read -9223372036854775808 9223372036854775807", "learn 256 64 65535",
    "call 1 1 unlock 0 desc 0 -1", "call 1 1 unlock 0 desc read 0 1", "deliver 4294967295",
    "lose 0", "retry 1", "retry 1 1 1", "interrupt 64 256", "call 1 1", "call 1 1 spawn 1",
    "journal 2 nodes 1 files 1 policy wide", "end 0", "settle\u2028settle", "settle\x85",
    "settle\x0b", "settle\x0csettle", "settle\x1c", "settle\x00",
)  # fmt: skip

LETTERS = " \n\r\t#-+0159aé\u00a0\u2003\x00"


def whole_scripts() -> list[str]:
    """Returns short scripts that are good."""
    texts = []
    for path in sorted(glob.glob(os.path.join(TOP, "tests", "scripts", "*.lock"))):
        with open(path, "rb") as file:
            data = file.read()
        try:
            text = data.decode("utf-8")
            scripts.read_script(text)
        except (UnicodeDecodeError, faults.Fault):
            continue
        if len(text) < 2000:
            texts.append(text)
    return texts


def damaged(text: str, chance: random.Random) -> str:
    """Damages a script in one way."""
    kind = chance.randrange(6)
    if kind == 0:
        at = chance.randrange(len(text) + 1)
        return text[:at] + chance.choice(LETTERS) + text[at:]
    if kind == 1:
        at = chance.randrange(len(text))
        return text[:at] + text[at + 1 :]
    if kind == 2:
        return text[: chance.randrange(len(text) + 1)]
    lines = text.split("\n")
    at = chance.randrange(len(lines))
    if kind == 3:
        lines.insert(at, chance.choice(LINES))
    elif kind == 4:
        lines[at] = chance.choice(LINES)
    else:
        words = lines[at].split(" ")
        words[chance.randrange(len(words))] = chance.choice(WORDS)
        lines[at] = " ".join(words)
    return "\n".join(lines)


def program_says(text: str) -> Optional[int]:
    """Returns the first bad line of a script as the program tells it, or None."""
    words = [PROGRAM or "", "run", "-", "--quiet", "--journal", os.devnull]
    ran = subprocess.run(
        words, input=text.encode(), capture_output=True, timeout=SECONDS, check=False
    )
    if ran.returncode == faults.DONE:
        return None
    found = ran.stderr.decode()
    if ran.returncode != faults.BAD_INPUT or not found.startswith("bad line "):
        raise AssertionError(f"status {ran.returncode}: {found}")
    return int(found[len("bad line ") :])


def reader_says(text: str) -> Optional[int]:
    """Returns the first bad line of a script as the reader tells it, or None."""
    try:
        scripts.read_script(text)
    except faults.Fault as fault:
        return int(fault.error[len("bad line ") :])
    return None


class DamagedScripts(unittest.TestCase):
    @unittest.skipUnless(PROGRAM, "LOCKREPLAY_PROGRAM names no program")
    def test_reader_accepts_what_the_program_accepts(self) -> None:
        chance = random.Random(20261201)
        texts = whole_scripts()
        found = [damaged(chance.choice(texts), chance) for _ in range(COUNT)]
        found += [f"cluster nodes 2 files 1 policy wide\n{line}\n" for line in LINES]
        found += ["", "\n", "#\n", "#", "cluster nodes 1 files 1 policy wide"]
        with concurrent.futures.ThreadPoolExecutor(THREADS) as pool:
            for text, wanted in zip(found, pool.map(program_says, found)):
                self.assertEqual(reader_says(text), wanted, repr(text))


class Lines(unittest.TestCase):
    def test_values(self) -> None:
        text = "# begun\n\ncluster nodes 2 files 3 policy exact\ncall 2 7 set 0 proc read -5 0\n"
        script = scripts.read_script(text + "learn 3 2 65535\n")
        self.assertEqual(script.shape, scripts.ClusterShape(2, 3, "exact"))
        operation = scripts.Operation("set", (0, "proc", "read", -5, 0))
        self.assertEqual(script.lines[0].command, scripts.Call(2, 7, operation))
        self.assertEqual(operation.text, "set 0 proc read -5 0")
        self.assertEqual(script.lines[1].number, 5)
        self.assertEqual(script.lines[1].command, scripts.Learn(3, 2, 65535))

    def test_threads_refuse_a_line_before_a_bad_one(self) -> None:
        text = "cluster nodes 1 files 1 policy wide\nsettle\nlose 1\nstop\n"
        for for_threads, number in ((False, 4), (True, 3)):
            with self.assertRaises(faults.Fault) as caught:
                scripts.read_script(text, for_threads)
            self.assertEqual(caught.exception.error, f"bad line {number}\n")

    def test_expectations(self) -> None:
        text = "# expect a\ncall 1 1 spawn\n# expect done\n# expect b\ncall 1 1 exit\n# expect c"
        self.assertEqual(
            list(scripts.expectations(text)),
            [(1, "a", False), (3, "done", True), (4, "b", False)],
        )


if __name__ == "__main__":
    unittest.main()
