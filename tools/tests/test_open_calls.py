"""Tests of why calls are open, by states that are written here."""

from __future__ import annotations

import unittest

from nuvatsimo.cycles import cycles_of
from nuvatsimo.places import World
from nuvatsimo.states import document_of, is_about

STATE = [
    "state after entry 9",
    "node 1 live 1.1",
    "node 2 live 2.1",
    "server 1 works in epoch 1",
    "server 2 failed in epoch 1",
    "lock file 1 write 0 9 p1@1.1",
    "lock file 1 read 5 90 p1@2.1",
    "lock file 1 write 200 209 p2@1.1",
    "open 1.1.3 process 1 file 1 wait write 80 89 p1@1.1",
    "open 1.1.9 process 2 file 2 set write 0 9 p2@1.1",
    "open 2.1.4 process 1 file 1 wait read 0 0 p1@2.1",
    "open 2.1.5 process 2 file 1 set write 300 309 p2@2.1",
    "server 1 serves, waits for node 2 to answer: request 1 1.1.3 wait write 80 89 80 89",
    "server 1 queued: request 1 2.1.5 now write 80 400 80 400",
    "server 1 row 2.1 commands 3",
    "server 1 row 2.1 token shared 0 99",
    "server 1 row 2.1 is to answer: revoke 1 1 3 2.1 1.1.3 write 80 89 80 89",
]


class Places(unittest.TestCase):
    """Where requests are."""

    def setUp(self) -> None:
        self.world = World(STATE)

    def place(self, name: str) -> str:
        return self.world.place(self.world.calls[name], has_messages=False).text()

    def test_blockers(self) -> None:
        blockers = {name: self.world.blockers(call) for name, call in self.world.calls.items()}
        self.assertEqual(["read 5 90 p1@2.1"], blockers["1.1.3"])
        self.assertEqual(["write 0 9 p1@1.1"], blockers["2.1.4"])
        self.assertEqual([], blockers["2.1.5"])

    def test_places(self) -> None:
        command = "revoke 1 1 3 2.1 1.1.3 write 80 89 80 89"
        self.assertEqual(
            f"served: server 1 waits for node 2 to answer: {command}", self.place("1.1.3")
        )
        self.assertEqual("queued: at server 1, behind 1.1.3", self.place("2.1.5"))
        self.assertEqual("failed: server 2", self.place("1.1.9"))
        self.assertEqual(
            "unknown: server 1 has no request of it: a retry asks again", self.place("2.1.4")
        )

    def test_cycle(self) -> None:
        self.assertEqual([(["1.1.3", "2.1.4"], True)], cycles_of(self.world, lambda owner: [owner]))


class States(unittest.TestCase):
    """What a node or a file has to do with."""

    def test_node(self) -> None:
        lines = [line for line in STATE if is_about(line, 2, None)]
        self.assertIn(STATE[12], lines)
        self.assertNotIn("node 1 live 1.1", lines)
        self.assertNotIn("lock file 1 write 0 9 p1@1.1", lines)
        self.assertIn("server 2 failed in epoch 1", lines)

    def test_file(self) -> None:
        lines = [line for line in STATE if is_about(line, None, 2)]
        self.assertEqual([*STATE[:3], STATE[4], STATE[9]], lines)

    def test_document(self) -> None:
        told = document_of(STATE)
        self.assertEqual(9, told["after"])
        self.assertEqual([{"file": 2, "works": None, "failed": 1}], told["epochs"][1:])
        self.assertEqual(3, told["servers"][0]["rows"][0]["commands"])
        self.assertEqual(1, len(told["servers"]))


if __name__ == "__main__":
    unittest.main()
