"""What live nodes hold behind the entries of a journal: tokens, locks, and waits for locks.

It begins with what the program says of the state behind an entry, and reads on: a grant that
is answered raises a token, bytes that are released lower it, and replies change locks.
"""

from __future__ import annotations

from typing import Callable, NamedTuple, Optional

from nuvatsimo.journal import Entry
from nuvatsimo.pictures.calls import Call, Step
from nuvatsimo.pictures.descriptors import Descriptors, Place
from nuvatsimo.pictures.runs import Run, Runs
from nuvatsimo.texts import host_of, owner_order, span_of

# Takes `token` or `lock`, a file, the host or the owner, and the runs that go and that come.
Note = Callable[[str, int, str, list[Run], list[Run]], None]


class Wait(NamedTuple):
    """An open call that waits for a lock to go."""

    call: str
    file: int
    mode: str
    lo: int
    hi: int
    owner: str


class Held:
    """What the live nodes hold. `note` is told of each run that comes or goes."""

    def __init__(self, note: Note) -> None:
        self._note = note
        self._descriptors: dict[str, Descriptors] = {}
        self._tokens: dict[str, dict[int, Runs]] = {}
        self._locks: dict[str, dict[Place, Runs]] = {}
        self.waits: dict[str, Wait] = {}
        self.changed: set[int] = set()

    def pass_over(self, entry: Entry, step: Step) -> None:
        """Takes an entry before the state with which it begins."""
        if entry.event.startswith("declare "):
            self._descriptors.pop(entry.event[8:], None)
        if step.answered is not None:
            self._of(step.answered).take(step.answered)

    def begin(self, state: list[str]) -> None:
        """Begins with the lines of a state."""
        for words in (line.split(" ") for line in state):
            if words[0] == "token":
                _, host, _, file, level, lo, hi = words
                self._add("token", int(file), host, (int(lo), int(hi), level))
            elif words[0] == "lock":
                _, _, file, mode, lo, hi, owner = words
                self._add("lock", int(file), owner, (int(lo), int(hi), mode))
            elif words[0] == "open" and words[6] == "wait":
                _, call, _, _, _, file, _, mode, lo, hi, owner = words
                self.waits[call] = Wait(call, int(file), mode, int(lo), int(hi), owner)

    def take(self, entry: Entry, step: Step) -> None:
        """Takes the next entry."""
        self.changed.clear()
        for call in step.ended:
            self.waits.pop(call.name, None)
        if entry.event.startswith("declare "):
            self._drop_host(entry.event[8:])
        elif entry.event.startswith("deliver grant "):
            self._raise_token(entry)
        elif entry.event.startswith("deliver revoke "):
            self._lower_token(entry)
        if step.made is not None and step.made is not step.answered:
            self._wait(step.made)
        if step.answered is not None:
            self._answer(step.answered)

    def first_blocker(self, wait: Wait) -> Optional[str]:
        """Returns the lock that blocks a wait: of all such the first by byte, then by owner."""
        found = [
            (lo, owner_order(owner), f"{mode} {lo} {hi} {owner}")
            for of_host in self._locks.values()
            for (file, owner), runs in of_host.items()
            if file == wait.file and owner != wait.owner
            for lo, hi, mode in runs.within(wait.lo, wait.hi)
            if "write" in (mode, wait.mode)
        ]
        return min(found)[2] if found else None

    def _of(self, call: Call) -> Descriptors:
        if call.host not in self._descriptors:
            self._descriptors[call.host] = Descriptors(call.host)
        return self._descriptors[call.host]

    def _add(self, kind: str, file: int, holder: str, run: Run) -> None:
        self._runs(kind, file, holder).add(run)
        self._note(kind, file, holder, [], [run])

    def _runs(self, kind: str, file: int, holder: str) -> Runs:
        if kind == "token":
            return self._tokens.setdefault(holder, {}).setdefault(file, Runs())
        of_host = self._locks.setdefault(holder.partition("@")[2], {})
        return of_host.setdefault((file, holder), Runs())

    def _change(
        self,
        kind: str,
        file: int,
        holder: str,
        span: tuple[int, int],
        value_of: Callable[[Optional[str]], Optional[str]],
    ) -> None:
        gone, new = self._runs(kind, file, holder).change(*span, value_of)
        self._note(kind, file, holder, gone, new)
        if kind == "lock":
            self.changed.add(file)

    def _drop_host(self, host: str) -> None:
        self._descriptors.pop(host, None)
        for file, runs in self._tokens.pop(host, {}).items():
            self._note("token", file, host, list(runs), [])
        for (file, owner), runs in self._locks.pop(host, {}).items():
            self._note("lock", file, owner, list(runs), [])
            self.changed.add(file)

    def _raise_token(self, entry: Entry) -> None:
        if not any(sent.startswith("taken ") for sent in entry.sends):
            return
        words = entry.event.split(" ")
        call, mode, lo, hi = words[-4:]
        span = int(lo), int(hi)
        value_of = _to_exclusive if mode == "write" else _to_shared
        self._change("token", int(words[2]), host_of(call), span, value_of)

    def _lower_token(self, entry: Entry) -> None:
        words = entry.event.split(" ")
        value_of = _to_none if words[-5] == "write" else _to_shared_at_most
        for sent in entry.sends:
            if sent.startswith("released "):
                *_, host, _, lo, hi = sent.split(" ")
                self._change("token", int(words[2]), host, (int(lo), int(hi)), value_of)

    def _wait(self, call: Call) -> None:
        words = call.operation.split(" ")
        if words[0] == "wait":
            file, owner = self._of(call).place(call)
            lo, hi = span_of(int(words[4]), int(words[5]))
            self.waits[call.name] = Wait(call.name, file, words[3], lo, hi, owner)

    def _answer(self, call: Call) -> None:
        self.waits.pop(call.name, None)
        words = call.operation.split(" ")
        if words[0] in ("set", "wait", "unlock"):
            if call.reply == "done":
                file, owner = self._of(call).place(call)
                mode = None if words[0] == "unlock" else words[3]
                span = span_of(int(words[-2]), int(words[-1]))
                self._change("lock", file, owner, span, lambda _: mode)
            return
        for file, owner in self._of(call).take(call):
            runs = self._locks.get(call.host, {}).pop((file, owner), None)
            if runs is not None:
                self._note("lock", file, owner, list(runs), [])
                self.changed.add(file)


def _to_exclusive(_: Optional[str]) -> Optional[str]:
    return "exclusive"


def _to_shared(level: Optional[str]) -> Optional[str]:
    return level or "shared"


def _to_shared_at_most(level: Optional[str]) -> Optional[str]:
    return level and "shared"


def _to_none(_: Optional[str]) -> Optional[str]:
    return None
