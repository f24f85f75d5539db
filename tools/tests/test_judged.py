"""Tests of the picture of a call that fits nowhere in a history of clients."""

from __future__ import annotations

import unittest
from typing import Any, Optional

from nuvatsimo import faults
from nuvatsimo.pictures import judged
from nuvatsimo.pictures.histories import DROPS, FREES, IS_DENIED, LOCKS, ClientCall, History
from nuvatsimo.pictures.misfits import Misfit, _answer, _asked, around, escaped, fitting

TEXT = """\
history 1 clock ns
machine a skew 3
machine b skew 0
# a comment
note call 1 2 p3@a exit

lost 5 6 f
call 1 4 p1@a set f write 0 100 -> done
call 5 6 p2@b query f read 50 0 -> blocked write 0 100 p1@a
call 7 8 p2@b wait f read 50 10 -> interrupted
call 9 10 p2@b close f unused -> done
call 11 - p2@b wait f read 50 10
call 12 13 p1@a set g write 0 1 -> refused EBADF
call 14 15 p1@a exit
call 16 17 p2@b unlock f 0 0 -> done
"""


def calls_of(*allowed: str, file: str = "f") -> list[ClientCall]:
    return History(TEXT, list(allowed)).calls(file)


def acts_of(*allowed: str) -> list[tuple[int, str]]:
    return [(call.line, call.act) for call in calls_of(*allowed)]


class HistoryTest(unittest.TestCase):
    def test_calls_of_a_file(self) -> None:
        wanted = [(8, LOCKS), (9, IS_DENIED), (11, DROPS), (12, LOCKS), (15, FREES), (14, DROPS)]
        self.assertEqual(acts_of(), wanted)
        self.assertEqual(calls_of(file="g"), [])

    def test_times_are_as_wide_as_clocks_may_be_off(self) -> None:
        times = [(call.begin, call.end) for call in calls_of()]
        self.assertEqual(times[:2], [(0, 7), (5, 6)])
        self.assertEqual(times[-1], (11, 18))

    def test_what_is_allowed_says_less(self) -> None:
        self.assertNotIn((9, IS_DENIED), acts_of("no-query"))
        self.assertNotIn((9, IS_DENIED), acts_of("stale-read-denial"))
        self.assertNotIn((11, DROPS), acts_of("close-own-descriptor"))

    def test_a_wait_may_be_two_acts(self) -> None:
        acts = acts_of("wait-drops")
        self.assertIn((10, FREES), acts)
        self.assertEqual([act for line, act in acts if line == 12], [FREES, LOCKS])

    def test_losses_stand_before_exits(self) -> None:
        self.assertEqual(acts_of("lost-at")[-3:], [(7, DROPS), (7, DROPS), (14, DROPS)])

    def test_a_span_to_the_end(self) -> None:
        self.assertEqual([call.span for call in calls_of()][1], (50, 2**63 - 1))


class WordsTest(unittest.TestCase):
    def test_words_of_calls(self) -> None:
        history = History(TEXT, [])
        words = [
            (_asked(history.line(call.line), call), _answer(history.line(call.line), call))
            for call in history.calls("f")
        ]
        wanted = [
            ("set write 0-99", "done"),
            ("query read 50-end", "blocked write 0-99 p1@a"),
            ("close", "done"),
            ("wait read 50-59", "no reply"),
            ("unlock 0-end", "done"),
            ("exit", "done"),
        ]
        self.assertEqual(words, wanted)

    def test_labels_are_cut(self) -> None:
        self.assertIn(">abcdefghi…<", fitting("word", 0, 0, "abcdefghijkl", 50))
        self.assertIn(">abcdefghij<", fitting("word", 0, 0, "abcdefghij", 50))
        self.assertIn(">…<", fitting("word", 0, 0, "ab", -3))

    def test_escapes(self) -> None:
        self.assertEqual(escaped("<a b='\"&\x01\t\x7f"), "&lt;a b=&apos;&quot;&amp;\ufffd\t\x7f")


class AroundTest(unittest.TestCase):
    def test_ten_before_and_ten_behind(self) -> None:
        calls = [ClientCall(line, line * 10, line * 10 + 5, "p", DROPS) for line in range(1, 31)]
        lines = [call.line for call in around(calls, 15)]
        self.assertEqual(lines, list(range(5, 26)))
        self.assertEqual(around(calls, 99), [])

    def test_calls_without_an_end_come_last_of_those_behind(self) -> None:
        calls = [ClientCall(1, 10, 20, "p", DROPS), ClientCall(2, 5, None, "q", LOCKS)]
        calls += [ClientCall(line, 20 + line, 60, "r", DROPS) for line in range(3, 13)]
        self.assertNotIn(2, [call.line for call in around(calls, 1)])
        self.assertIn(2, [call.line for call in around(calls[:-1], 1)])


class PictureTest(unittest.TestCase):
    def picture(self, table: dict[str, Any]) -> str:
        found = {"line": 9, "tables": [table]}
        return "".join(Misfit(History(TEXT, []), "f", found).drawn())

    def test_what_is_told_of_a_table(self) -> None:
        lock = {"mode": "write", "start": 0, "len": 100, "owner": "p1@a"}
        text = self.picture({"locks": [lock], "in_way": lock, "open": [12]})
        self.assertIn(">table 1, open: line 12<", text)
        self.assertIn("<title>write 0 100 p1@a</title><rect class='in-way'", text)
        self.assertIn("<rect class='misfit'", text)
        text = self.picture({"locks": [lock] * 22, "in_way": None, "open": []})
        self.assertIn(">table 1, nothing in the way, more locks: 2<", text)
        self.assertEqual(text.count("<rect class='write'"), 20)


class CommandTest(unittest.TestCase):
    def refused(self, *words: str) -> Optional[str]:
        with self.assertRaises(faults.Fault) as raised:
            judged.main(list(words))
        self.assertEqual(raised.exception.status, faults.WORDS_REFUSED)
        return raised.exception.error.partition("\n")[0]

    def test_words_that_do_not_go_together(self) -> None:
        error = "error: the argument '--picture' takes one HISTORY"
        self.assertEqual(self.refused("a", "b", "--picture"), error)
        self.assertIn("--explains", self.refused("a", "--picture", "--explains", "b") or "")
        self.assertIn("lost-at", self.refused("a", "--picture", "--allow", "b") or "")

    def test_the_first_file_that_is_contradicted(self) -> None:
        output = '{"files":[{"file":"a"},{"file":"b","misfits":[{"line":3},{"line":4}]}]}'
        self.assertEqual(judged._first_misfit(output), ("b", {"line": 3}))
        self.assertIsNone(judged._first_misfit('{"files":[{"file":"a"}]}'))


if __name__ == "__main__":
    unittest.main()
