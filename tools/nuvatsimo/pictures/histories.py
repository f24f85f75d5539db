"""Reads the calls of a history of clients that the program has judged: it has no bad line."""

from __future__ import annotations

from collections.abc import Iterator
from typing import NamedTuple, Optional

from nuvatsimo.texts import span_of

LOCKS, IS_FREE, IS_DENIED, FREES, DROPS = "locks", "is free", "is denied", "frees", "drops"
_ACTS = {
    None: LOCKS,
    "done": LOCKS,
    "free": IS_FREE,
    "again": IS_DENIED,
    "blocked": IS_DENIED,
}


class ClientCall(NamedTuple):
    """What a call did to the locks of a file, and when it may have been made.

    `act` is LOCKS, IS_FREE, IS_DENIED, FREES or DROPS. Without a known reply there is no end.
    """

    line: int
    begin: int
    end: Optional[int]
    owner: str
    act: str
    mode: Optional[str] = None
    span: Optional[tuple[int, int]] = None


class History:
    """The lines of a history, and what `--allow` allows."""

    def __init__(self, text: str, allowed: list[str]) -> None:
        self._lines = text.split("\n")
        self._allowed = allowed
        self._skews: dict[str, int] = {}
        self._exits: dict[str, ClientCall] = {}
        for number, words in self._words("machine", "call"):
            if words[0] == "machine":
                self._skews[words[1]] = int(words[3])
            elif words[4] == "exit":
                self._exits[words[3]] = ClientCall(number, *_times(words), words[3], DROPS)

    def line(self, number: int) -> str:
        """Returns a line by its number, from 1."""
        line = self._lines[number - 1]
        return line[:-1] if line.endswith("\r") else line

    def calls(self, file: str) -> list[ClientCall]:
        """Returns the calls about a file: what its owners lost and their exits come last.

        Where the clock of a machine may be off, the times of calls are widened by as much.
        """
        calls: list[ClientCall] = []
        for number, words in self._words("call"):
            if len(words) > 5 and words[5] == file:
                calls += self._steps(number, words)
        owners = list(dict.fromkeys(call.owner for call in calls))
        if "lost-at" in self._allowed:
            calls += self._losses(file, owners)
        calls += [self._exits[owner] for owner in owners if owner in self._exits]
        return [self._widened(call) for call in calls]

    def _words(self, *kinds: str) -> Iterator[tuple[int, list[str]]]:
        """Yields the numbers and the words of lines of these kinds."""
        for number, line in enumerate(self._lines, 1):
            words = line.split(" ")
            if words[0] in kinds:
                yield number, words

    def _steps(self, number: int, words: list[str]) -> list[ClientCall]:
        """Returns what a call is taken for: nothing, one act, or the two of a wait."""
        operation = words[4]
        mode = words[6] if operation in ("set", "wait", "query") else None
        reply = words[words.index("->", 6) + 1] if "->" in words[6:] else None
        if self._says_nothing(words, mode, reply):
            return []
        act, span = DROPS, None
        if operation != "close":
            at = 6 if mode is None else 7
            span = span_of(int(words[at]), int(words[at + 1]))
            act = FREES if mode is None else _ACTS.get(reply, "")
        call = ClientCall(number, *_times(words), words[3], act, mode, span)
        if operation == "wait" and "wait-drops" in self._allowed:
            unlock = call._replace(act=FREES, mode=None)
            return [unlock] if reply == "interrupted" else [unlock, call]
        return [call]

    def _says_nothing(self, words: list[str], mode: Optional[str], reply: Optional[str]) -> bool:
        operation = words[4]
        if reply == "refused" or (operation == "query" and reply is None):
            return True
        if reply == "interrupted":
            return operation != "wait" or "wait-drops" not in self._allowed
        is_denied_read = reply in ("again", "blocked") and mode == "read"
        return (
            ("no-query" in self._allowed and operation == "query")
            or ("stale-read-denial" in self._allowed and is_denied_read)
            or ("close-own-descriptor" in self._allowed and words[6:7] == ["unused"])
        )

    def _losses(self, file: str, owners: list[str]) -> Iterator[ClientCall]:
        """Yields what these owners lost, unless the exit of one had ended before."""
        for number, words in self._words("lost"):
            begin, end = int(words[1]), int(words[2])
            for owner in owners if words[3] == file else ():
                gone = self._exits[owner].end if owner in self._exits else None
                if gone is None or begin <= gone:
                    yield ClientCall(number, begin, end, owner, DROPS)

    def _widened(self, call: ClientCall) -> ClientCall:
        skew = self._skews.get(call.owner.partition("@")[2], 0)
        end = None if call.end is None else call.end + skew
        return call._replace(begin=max(call.begin - skew, 0), end=end)


def _times(words: list[str]) -> tuple[int, Optional[int]]:
    return int(words[1]), None if words[2] == "-" else int(words[2])
