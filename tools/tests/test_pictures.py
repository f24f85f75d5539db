"""Tests of the parts of which pictures are made."""

from __future__ import annotations

import random
import tempfile
import unittest
from collections.abc import Iterator
from typing import Optional

from nuvatsimo import faults
from nuvatsimo.journal import Entry
from nuvatsimo.pictures import main, overview, svg
from nuvatsimo.pictures.actors import busy_in, lanes, sender_of, taker_of
from nuvatsimo.pictures.bars import _label
from nuvatsimo.pictures.calls import Call, Calls
from nuvatsimo.pictures.descriptors import Descriptors
from nuvatsimo.pictures.part import COMES, IS_LATE, IS_UNDELIVERED, Part, Window, around
from nuvatsimo.pictures.runs import Runs
from nuvatsimo.pictures.sheet import Sheet
from nuvatsimo.pictures.stays import Lives, Share, Stay, Thing

JOURNAL = """\
entry 1 call 1.1.1 1 spawn
reply 1.1.1 done
entry 2 call 1.1.2 1 open 1 rw
reply 1.1.2 fd 0
entry 3 call 1.1.3 1 set 0 proc write 0 100
send request 1 1.1.3 now write 0 99 0 99
entry 4 deliver request 1 1.1.3 now write 0 99 0 99
send grant 1 1 1 1.1.3 write 0 99
entry 5 deliver grant 1 1 1 1.1.3 write 0 99
reply 1.1.3 done
send taken 1 1 1 1.1.3
entry 6 deliver taken 1 1 1 1.1.3
entry 7 deliver taken 1 1 1 1.1.3
"""


class Journal:
    """Stands for the source of a journal."""

    def __init__(self, text: str, state: Optional[list[str]] = None) -> None:
        self._text = text
        self._state = state or []

    def entries(self, is_audited: bool = False) -> Iterator[Entry]:
        made: list[Entry] = []
        for number, line in enumerate(self._text.splitlines(), 1):
            kind, _, rest = line.partition(" ")
            if kind == "entry":
                position, _, event = rest.partition(" ")
                made.append(Entry(int(position), number, event))
            elif kind == "reply":
                made[-1].answered, _, made[-1].reply = rest.partition(" ")
            else:
                made[-1].sends.append(rest)
        return iter(made)

    def state(self, at: int) -> list[str]:
        return self._state


def part_of(first: int, last: int, state: Optional[list[str]] = None) -> Part:
    part = Part(Window(first, last))
    part.read(Journal(JOURNAL, state), has_holders=True)  # type: ignore[arg-type]
    return part


def call_of(operation: str, reply: str, pid: str = "1") -> Call:
    call = Call(1, "1.1.1", pid, operation)
    call.reply = reply
    return call


class RunsTest(unittest.TestCase):
    def test_same_as_bytes_one_by_one(self) -> None:
        numbers = random.Random(1)
        for _ in range(60):
            runs, held = Runs(), [None] * 24
            for _ in range(12):
                lo = numbers.randrange(20)
                hi = min(lo + numbers.randrange(6), 19)
                value = numbers.choice([None, "read", "write"])
                before = list(runs)
                gone, new = runs.change(lo, hi, lambda _: value)
                held[lo : hi + 1] = [value] * (hi + 1 - lo)
                told = [at for lo, hi, kind in runs for at in [kind] * (hi + 1 - lo)]
                self.assertEqual(told, [kind for kind in held if kind])
                self.assertEqual(sorted({*before, *new} - set(gone)), list(runs))
                touching = [(a, b) for a, b in zip(list(runs), list(runs)[1:])]
                self.assertFalse([1 for a, b in touching if a[1] + 1 == b[0] and a[2] == b[2]])

    def test_new_value_follows_the_old_one(self) -> None:
        runs = Runs()
        runs.change(5, 9, lambda _: "exclusive")
        runs.change(0, 19, lambda level: level or "shared")
        self.assertEqual(
            list(runs), [(0, 4, "shared"), (5, 9, "exclusive"), (10, 19, "shared")]
        )
        runs.change(7, 30, lambda level: level and "shared")
        self.assertEqual(
            list(runs), [(0, 4, "shared"), (5, 6, "exclusive"), (7, 19, "shared")]
        )

    def test_within(self) -> None:
        runs = Runs()
        for lo in (0, 10, 20):
            runs.change(lo, lo + 4, lambda _: "read")
        self.assertEqual(runs.within(4, 10), [(0, 4, "read"), (10, 14, "read")])
        self.assertEqual(runs.within(5, 9), [])


class DescriptorsTest(unittest.TestCase):
    def test_description_numbers_are_the_lowest_free_ones(self) -> None:
        host = Descriptors("1.1")
        host.take(call_of("spawn", "done"))
        for descriptor in "012":
            host.take(call_of(f"open {int(descriptor) + 1} rw", f"fd {descriptor}"))
        place = host.place(call_of("set 2 desc write 0 1", "done"))
        self.assertEqual(place, (3, "d3@1.1"))
        gone = host.take(call_of("close 0", "done"))
        self.assertEqual(gone, [(1, "p1@1.1"), (1, "d1@1.1")])
        host.take(call_of("open 2 r", "fd 0"))
        place = host.place(call_of("unlock 0 desc 0 1", "done"))
        self.assertEqual(place, (2, "d1@1.1"))

    def test_a_shared_description_stays(self) -> None:
        host = Descriptors("1.1")
        host.take(call_of("spawn", "done"))
        host.take(call_of("open 1 rw", "fd 0"))
        host.take(call_of("dup 0", "fd 1"))
        host.take(call_of("fork 2", "done"))
        self.assertEqual(
            host.take(call_of("exit", "done")), [(1, "p1@1.1"), (1, "p1@1.1")]
        )
        self.assertEqual(host.take(call_of("close 0", "done", "2")), [(1, "p2@1.1")])
        last = host.take(call_of("exit", "done", "2"))
        self.assertEqual(last, [(1, "p2@1.1"), (1, "d1@1.1")])

    def test_refused_calls_change_nothing(self) -> None:
        host = Descriptors("1.1")
        self.assertEqual(host.take(call_of("close 0", "no-process")), [])
        self.assertEqual(host.take(call_of("open 1 rw", "no-process")), [])


class CallsTest(unittest.TestCase):
    def test_an_exit_and_a_failure_end_calls(self) -> None:
        calls = Calls()
        steps = []
        for position, event in enumerate(
            ("call 1.1.1 1 wait 0 proc read 0 1", "call 1.1.2 2 wait 0 proc read 0 1",
             "call 1.1.3 1 exit", "declare 1.1"), 1
        ):  # fmt: skip
            steps.append(calls.take(Entry(position, position, event)))
        self.assertEqual([call.name for call in steps[2].ended], ["1.1.1"])
        self.assertEqual({call.name for call in steps[3].ended}, {"1.1.2", "1.1.3"})
        self.assertEqual(steps[0].made and steps[0].made.outcome, "ended at entry 3")
        self.assertEqual(calls.open(), [])


class StaysTest(unittest.TestCase):
    def test_a_stay_goes_on_where_its_bytes_change(self) -> None:
        lives = Lives(1)
        lives.note("lock", 1, "p1@2.1", [], [(0, 9, "read")])
        lives.position = 3
        lives.note("lock", 1, "p1@2.1", [(0, 9, "read")], [(0, 4, "read")])
        thing = Thing("lock", "p1@2.1", "read")
        wanted = [
            1,
            Share(0, 4, 2, True, [Stay(thing, 1, 5)]),
            Share(5, 9, 2, True, [Stay(thing, 1, 2)]),
        ]
        self.assertEqual(lives.tracks(5), wanted)

    def test_nodes_of_a_stretch_stand_by_their_numbers(self) -> None:
        lives = Lives(4)
        for host in ("10.1", "9.2"):
            lives.note("token", 2, host, [], [(0, 9, "shared")])
        file, first, second = lives.tracks(4)
        self.assertEqual(file, 2)
        self.assertIsInstance(first, Share)
        self.assertEqual([(it.node, it.leads) for it in (first, second)], [(9, True), (10, False)])

    def test_what_begins_and_ends_at_one_entry_is_not_there(self) -> None:
        lives = Lives(1)
        lives.note("lock", 1, "p1@2.1", [], [(0, 9, "read")])
        lives.note("lock", 1, "p1@2.1", [(0, 9, "read")], [])
        self.assertEqual(lives.tracks(9), [])


class PartTest(unittest.TestCase):
    def test_messages_that_come_late_or_never(self) -> None:
        part = part_of(3, 4)
        self.assertEqual(part.fate_of(3, "request 1 1.1.3 now write 0 99 0 99"), COMES)
        self.assertEqual(part.fate_of(4, "grant 1 1 1 1.1.3 write 0 99"), IS_LATE)
        self.assertEqual(part.fate_of(4, "grant 1 1 2 1.1.3 write 0 99"), IS_UNDELIVERED)
        self.assertEqual(part.origins, {4: 3})
        self.assertEqual([call.name for call in part.calls], ["1.1.3"])

    def test_the_whole(self) -> None:
        part = part_of(1, 400)
        self.assertEqual((part.window, part.count), (Window(1, 7), 7))
        self.assertEqual(part.origins, {4: 3, 5: 4, 6: 5, 7: 5})
        self.assertEqual(part.fate_of(5, "taken 1 1 1 1.1.3"), COMES)
        share = part.tracks[1]
        self.assertIsInstance(share, Share)
        first, last = (Thing("token", "1.1", "exclusive"), Thing("lock", "p1@1.1", "write"))
        self.assertEqual(share[4], [Stay(first, 5, 7), Stay(last, 5, 7)])

    def test_it_begins_with_the_state_before_it(self) -> None:
        state = [
            "state after entry 5",
            "node 1 live 1.1",
            "token 1.1 file 1 exclusive 0 99",
            "lock file 1 write 0 99 p1@1.1",
        ]
        share = part_of(6, 7, state).tracks[1]
        self.assertEqual([stay[1:] for stay in share[4]], [(6, 7), (6, 7)])

    def test_calls_that_go_on_into_the_window(self) -> None:
        self.assertEqual([call.name for call in part_of(4, 4).calls], ["1.1.3"])
        self.assertEqual([call.name for call in part_of(6, 7).calls], [])
        self.assertEqual([call.name for call in part_of(5, 3).calls], ["1.1.3"])

    def test_around(self) -> None:
        entries = Journal(JOURNAL).entries
        self.assertEqual(around(entries(), "1.1.3"), (3, 7))
        self.assertEqual(around(entries(), "1.1.2"), (2, 2))
        self.assertIsNone(around(entries(), "1.1"))
        self.assertIsNone(around(entries(), "1"))
        self.assertIsNone(around(entries(), ""))


class ActorsTest(unittest.TestCase):
    def test_takers_and_senders(self) -> None:
        for event, taker in (
            ("resend 3", "server 3"),
            ("learn 2 1.4", "server 2"),
            ("fail-server 2.1", "server 2"),
            ("retry 5.1 2", "node 5"),
            ("deliver deny 1 2.1.3 1.1 1 4 write 0 9 p1@1.1", "node 2"),
            ("deliver hello 1 2 7.1", "node 7"),
            ("deliver freed 4 7.1", "server 4"),
        ):
            self.assertEqual(taker_of(event), taker)
        self.assertEqual(sender_of("deny 1 2.1.3 1.1 1 4 write 0 9 p1@1.1"), "server 1")
        self.assertEqual(sender_of("report 1 2 7.1 0"), "node 7")
        entry = Entry(1, 1, "deliver taken 1 1 1 1.1.3")
        entry.sends.append("grant 1 1 2 3.1.3 read 0 9")
        self.assertEqual(busy_in(entry), {"node 1", "server 1", "node 3"})

    def test_half_of_the_nodes_stand_above_the_servers(self) -> None:
        busy = {"node 10", "node 9", "server 2", "node 1"}
        self.assertEqual(lanes(busy), (["node 1", "node 9"], ["server 2"], ["node 10"]))


class SheetTest(unittest.TestCase):
    def test_names_of_rows_take_room_behind_each_twentieth_entry(self) -> None:
        sheet = Sheet(part_of(1, 400))
        self.assertEqual([sheet.x(at) for at in (0, 1, 7, 8, 99)], [130, 190, 550, 610, 610])
        sheet.window = Window(19, 42)
        self.assertEqual([sheet.x(at) for at in (18, 19, 20, 21)], [130, 190, 250, 430])
        self.assertEqual(sheet.x(41) - sheet.x(40), 180)

    def test_rows(self) -> None:
        rows = Sheet(part_of(1, 400)).rows
        self.assertEqual(rows, ["process 1 of 1.1", "node 1", "server 1"])

    def test_labels_are_as_long_as_there_is_room(self) -> None:
        call = Call(1, "1.1.1", "1", "set 0 proc write 0 100")
        why = "again write 0 9 p1@2.1"
        long, short = f"{call.operation} {why}", f"set {why}"
        for room, label in (
            (6 * (len(long) - 1), long),
            (6 * (len(long) - 1) - 1, short),
            (6 * (len(short) - 1) - 1, call.operation),
            (6 * len(call.operation) - 1, "set"),
            (0, "set"),
        ):
            self.assertEqual(_label(call, why, room), label)


class OverviewTest(unittest.TestCase):
    def test_heights(self) -> None:
        heights = [overview._height(number, 40) for number in (0, 1, 4, 7, 8, 40)]
        self.assertEqual(heights, [0, 1, 1, 1, 2, 10])

    def test_columns_are_400_at_most(self) -> None:
        sizes = [overview.Overview(count).size for count in (0, 400, 401, 800, 801)]
        self.assertEqual(sizes, [1, 1, 2, 2, 3])

    def test_the_last_line_tells_how_many_entries_there_are(self) -> None:
        for text, count in (
            (b"journal 2 nodes 1 files 1 policy wide\nend 0\n", 0),
            (b"journal 2\nend 1048576\n", 1048576),
            (b"end 5\n", None),
            (b"x\nend 5 6\n", None),
            (b"x\nend \xb2\n", None),
            (b"", None),
        ):
            with tempfile.NamedTemporaryFile() as file:
                file.write(text)
                file.flush()
                self.assertEqual(overview.count_of(file.name), count)
        self.assertIsNone(overview.count_of("/nothing/of/this/name"))


class CommandTest(unittest.TestCase):
    def test_the_format_trace_is_gone(self) -> None:
        with self.assertRaises(faults.Fault) as raised:
            main.main(["a.journal", "--format", "trace"])
        self.assertEqual(raised.exception.status, 2)
        line = "the trace format is gone: --format is svg or mermaid\n"
        self.assertEqual(raised.exception.error, line)

    def test_a_format_of_another_name(self) -> None:
        with self.assertRaises(faults.Fault) as raised:
            main.main(["a.journal", "--format", "png"])
        self.assertEqual(raised.exception.status, 2)
        self.assertIn("it is svg or mermaid", raised.exception.error)

    def test_what_a_picture_lacks(self) -> None:
        lack = main._lack_of
        self.assertIsNone(lack(Window(1, 400), Window(1, 400), 7))
        self.assertIsNone(lack(Window(3, 5), Window(3, 5), 0))
        told = lack(Window(1, main.NUMBER_MAX), Window(1, 400), 500)
        self.assertEqual(
            told, "entries 401 to 500 are left out: a picture shows 400 at most"
        )
        told = lack(Window(8, 9), Window(8, 9), 7)
        self.assertEqual(told, "no entry lies from 8 to 9: the last one is 7")

    def test_elements(self) -> None:
        self.assertEqual(
            svg.titled("a", svg.line("b", 1, 2, 3, 4)),
            "<g><title>a</title><line class='b' x1='1' y1='2' x2='3' y2='4'/></g>\n",
        )


if __name__ == "__main__":
    unittest.main()
