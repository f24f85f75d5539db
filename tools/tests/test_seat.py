"""Drives seats of the program as another program's tests would."""

from __future__ import annotations

import os
import shutil
import subprocess
import tempfile
import unittest

from nuvatsimo import program
from nuvatsimo.seat import Cluster, Refused, Seat


class Seats(unittest.TestCase):
    def test_two_nodes_share_a_file(self) -> None:
        with Cluster(nodes=2, files=1, program=program.path()) as cluster:
            for node in (1, 2):
                self.assertEqual(cluster.call(node, 1, "spawn"), "done")
                self.assertEqual(cluster.call(node, 1, "open 1 rw"), "fd 0")
            self.assertEqual(cluster.call(1, 1, "set 0 proc write 0 100"), "done")
            denied = cluster.call(2, 1, "set 0 proc read 50 10")
            self.assertEqual(denied, "again write 0 99 p1@1.1")
            self.assertIsNone(cluster.call(2, 1, "wait 0 proc write 0 10"))
            self.assertEqual(cluster.call(1, 1, "unlock 0 proc 0 0"), "done")
            for _ in range(20):
                cluster.tick()
            self.assertEqual(cluster.replies["2.1.4"], "done")

    def test_a_seat_alone(self) -> None:
        seat = Seat(program.path(), "node 1", "--nodes=1", "--files=1", "--policy=exact")
        self.addCleanup(seat.close)
        self.assertEqual(seat.start.entries, [])
        self.assertEqual(seat.call(1, "spawn").replies, {"1.1.1": "done"})
        seat.call(1, "open 1 rw")
        asked = seat.call(1, "wait 0 proc write 0 100")
        self.assertEqual(asked.call, "1.1.3")
        request = "request 1 1.1.3 wait write 0 99 0 99"
        self.assertEqual(asked.sends, [("server 1", request)])
        with self.assertRaises(Refused) as refused:
            seat.call(1, "close 0")
        self.assertEqual(refused.exception.code, 13)
        self.assertEqual(seat.interrupt(1).replies, {"1.1.3": "interrupted"})
        with self.assertRaises(Refused) as refused:
            seat.ask("sing")
        self.assertEqual(refused.exception.code, 9)

    @unittest.skipUnless(shutil.which("go"), "no Go is here")
    def test_the_module_in_go(self) -> None:
        folder = os.path.join(os.path.dirname(os.path.abspath(__file__)), "../../examples/go")
        words = ["go", "test", "-count=1", "./..."]
        rest = {"HOME": tempfile.gettempdir(), **os.environ}
        ran = subprocess.run(
            words, cwd=folder, env=rest, capture_output=True, check=False, text=True
        )
        self.assertEqual(ran.returncode, 0, ran.stdout + ran.stderr)


if __name__ == "__main__":
    unittest.main()
