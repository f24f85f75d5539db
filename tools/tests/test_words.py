"""Tests of the reading of command lines."""

from __future__ import annotations

import unittest

from nuvatsimo import faults
from nuvatsimo.words import Argument, Command, Option, number

COMMAND = Command(
    "state",
    "Show it",
    (Argument("journal", "JOURNAL", "The journal"),),
    (
        Option("--at", "Behind entry K", "K", number()),
        Option("--node", "Node N", "N", number(1, 64)),
        Option("--json", "As JSON"),
    ),
    "Notes.\n",
)


def refusal(*words: str) -> str:
    """Returns the first line by which the words are refused."""
    try:
        COMMAND.parse(list(words))
    except faults.Fault as fault:
        assert fault.status == faults.WORDS_REFUSED
        return fault.error.partition("\n")[0]
    return ""


class Words(unittest.TestCase):
    """What is read, and what is refused."""

    def test_values(self) -> None:
        asked = COMMAND.parse(["--at=+07", "x", "--json"])
        self.assertEqual((7, None, True, "x"), (asked.at, asked.node, asked.json, asked.journal))
        self.assertEqual("-x", COMMAND.parse(["--", "-x"]).journal)
        self.assertEqual("-", COMMAND.parse(["-"]).journal)

    def test_numbers(self) -> None:
        front = "error: invalid value"
        self.assertEqual(
            f"{front} '0' for '--node <N>': 0 is not in 1..=64", refusal("x", "--node", "0")
        )
        self.assertEqual(
            f"{front} '' for '--at <K>': cannot parse integer from empty string",
            refusal("x", "--at="),
        )
        self.assertEqual(
            f"{front} '1a' for '--at <K>': invalid digit found in string", refusal("x", "--at=1a")
        )

    def test_other_words(self) -> None:
        self.assertEqual("error: unexpected argument 'y' found", refusal("x", "y"))
        self.assertEqual("error: unexpected argument '-a' found", refusal("x", "-at"))
        self.assertEqual("error: unexpected argument '--jsn' found", refusal("x", "--jsn"))
        self.assertEqual(
            "error: the argument '--json' cannot be used multiple times",
            refusal("x", "--json", "--json"),
        )
        self.assertEqual(
            "error: a value is required for '--at <K>' but none was supplied", refusal("--at")
        )
        self.assertEqual(
            "error: the following required arguments were not provided:", refusal("--json")
        )

    def test_help(self) -> None:
        for word, last in (("--help", "Notes.\n"), ("-h", "(see more with '--help')\n")):
            with self.assertRaises(faults.Fault) as caught:
                COMMAND.parse([word])
            self.assertEqual(faults.DONE, caught.exception.status)
            self.assertTrue(caught.exception.output.endswith(last))


if __name__ == "__main__":
    unittest.main()
