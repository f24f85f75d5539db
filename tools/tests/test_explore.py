"""Tests of exploring: chance, processes, answers, outcomes, and small searches."""

from __future__ import annotations

import contextlib
import io
import os
import tempfile
import unittest

from nuvatsimo import faults, scripts
from nuvatsimo.explore import main
from nuvatsimo.explore.chance import Chance
from nuvatsimo.explore.choosing import Letters
from nuvatsimo.explore.left_open import BLOCKED, OPEN, UNDELIVERED, Left
from nuvatsimo.explore.outcomes import Outcomes
from nuvatsimo.explore.playing import Made
from nuvatsimo.explore.reports import json_of_seeds, text_of_seeds
from nuvatsimo.explore.schedules import limit_of

PROGRAM = os.environ.get("LOCKREPLAY_PROGRAM")
TWO_WAITS = """\
cluster nodes 1 files 1 policy wide
call 1 1 spawn
call 1 1 open 1 rw
call 1 1 wait 0 proc write 0 10
# expect open
call 1 2 wait 0 proc write 0 10
"""


class Draws(unittest.TestCase):
    """What chance draws."""

    def test_a_seed_has_one_sequence(self) -> None:
        one, other = Chance(7), Chance(7)
        self.assertEqual([one.below(100) for _ in range(50)], [other.below(100) for _ in range(50)])
        self.assertNotEqual(
            [Chance(1).below(1 << 32)], [Chance(2).below(1 << 32)]
        )

    def test_none_of_none(self) -> None:
        self.assertEqual(Chance(0).below(0), 0)

    def test_a_letter_that_goes_leaves_its_place_to_the_last(self) -> None:
        letters = Letters()
        letters.see(3)
        self.assertEqual(letters.take(0).number, 1)
        self.assertEqual([letters.take(0).number, letters.take(0).number], [3, 2])


class Schedules(unittest.TestCase):
    """How long schedules are."""

    def test_limit(self) -> None:
        self.assertEqual([limit_of(0), limit_of(10), limit_of(9999)], [64, 464, 100000])


class Answers(unittest.TestCase):
    """What open calls come to."""

    def test_held_alone_is_blocked_for_good(self) -> None:
        left = Left(frozenset(["1.1.3"]), {})
        self.assertEqual(left.answer("1.1.3"), BLOCKED)
        self.assertEqual(left.answer("1.1.3", is_whole=False), OPEN)
        self.assertEqual(left.answer("2.1.3"), OPEN)

    def test_held_beside_an_undelivered_call_may_go_on(self) -> None:
        left = Left(frozenset(["1.1.3"]), {"2.1.3": 1})
        self.assertEqual([left.answer("1.1.3"), left.answer("2.1.3")], [OPEN, UNDELIVERED])

    def test_lines_of_an_entry(self) -> None:
        made = Made("call 1.1.1 1 spawn", "1.1.1", "done", ("hello 1 1.1",))
        lines = ["entry 4 call 1.1.1 1 spawn\n", "reply 1.1.1 done\n", "send hello 1 1.1\n"]
        self.assertEqual(list(made.lines(4)), lines)


class Reports(unittest.TestCase):
    """What is told of outcomes."""

    def outcomes(self, *answers: str) -> Outcomes:
        outcomes = Outcomes(TWO_WAITS, scripts.read_script(TWO_WAITS, for_schedules=True))
        outcomes.come(("done", "fd 0", *answers)).seeds.append(1)
        return outcomes

    def test_blocked_where_open_is_expected_is_well(self) -> None:
        outcomes = self.outcomes(BLOCKED, "done")
        self.assertEqual((outcomes.stuck(), outcomes.wanting()), ([], []))

    def test_blocked_where_nothing_is_expected_is_told_last(self) -> None:
        outcomes = self.outcomes("open", BLOCKED)
        last = text_of_seeds(outcomes, 1).splitlines()[-1]
        self.assertEqual(last, "blocked for good, and not expected: line 6")
        self.assertIn('"blocked":[6]', json_of_seeds(outcomes, 1))
        self.assertEqual(len(outcomes.wanting()), 1)

    def test_those_that_break_are_first(self) -> None:
        outcomes = self.outcomes("open", "done")
        outcomes.come(("done", "fd 0", "done", "done")).seeds.append(2)
        self.assertEqual([it.is_breaking for it in outcomes.ordered()], [True, False])
        self.assertEqual((outcomes.expected(), outcomes.breaking()), (1, 1))


@unittest.skipUnless(PROGRAM, "LOCKREPLAY_PROGRAM names no program")
class Played(unittest.TestCase):
    """Small scripts that the program plays."""

    def explored(self, text: str, *words: str) -> tuple[int, str]:
        output = io.StringIO()
        with tempfile.TemporaryDirectory() as room, contextlib.redirect_stdout(output):
            path = os.path.join(room, "a.lock")
            with open(path, "w", encoding="utf-8") as file:
                file.write(text)
            return main.explore([path, *words]), output.getvalue()

    def test_all_of_a_quiet_script(self) -> None:
        text = "cluster nodes 1 files 1 policy wide\ncall 1 1 spawn\n# expect done\n"
        told = "outcome 1\noutcomes 1, states 2, expected 1, breaking 0, open in each 0\n"
        told += "no schedule of 2 states breaks what is expected\n"
        self.assertEqual(self.explored(text, "--all"), (faults.DONE, told))

    def test_too_few_states(self) -> None:
        text = "cluster nodes 1 files 1 policy wide\ncall 1 1 spawn\n"
        status, told = self.explored(text, "--all", "--states", "1")
        self.assertEqual(status, faults.NOT_SO)
        self.assertIn("not all schedules: 2 states were found, and not all gone through", told)

    def test_lines_that_threads_do_not_take(self) -> None:
        text = "cluster nodes 1 files 1 policy wide\ncall 1 1 spawn\ninterrupt 1 1\n"
        with self.assertRaises(faults.Fault) as caught:
            self.explored(text)
        self.assertEqual(caught.exception.error, "bad line 3\n")


if __name__ == "__main__":
    unittest.main()
