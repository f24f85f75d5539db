"""The grammar of a journal's lines: which line may stand behind which.

Numbers are held to their limits by the expressions themselves. What they can't say, as that a
span does not end before it begins, is looked at behind a match.
"""

from __future__ import annotations

import re
from typing import Callable, Optional

from nuvatsimo.texts import GREATEST


def up_to(limit: int, least: int = 1) -> str:
    """Returns an expression of the numbers from 0 or 1 to a limit, without leading zeros."""
    digits = str(limit)
    size = len(digits)
    parts = ["0"] if least == 0 else []
    if size > 1:
        parts.append(f"[1-9][0-9]{{0,{size - 2}}}" if size > 2 else "[1-9]")
    for at, digit in enumerate(digits):
        low = 1 if at == 0 else 0
        if int(digit) > low:
            rest = size - at - 1
            tail = f"[0-9]{{{rest}}}" if rest else ""
            parts.append(f"{digits[:at]}[{low}-{int(digit) - 1}]{tail}")
    parts.append(digits)
    return f"(?:{'|'.join(sorted(set(parts), key=len, reverse=True))})"


_NODE, _FILE, _PROCESS = up_to(64), up_to(256), up_to(256)
_INCARNATION = _EPOCH = up_to(65535)
_LATER_EPOCH = f"(?!1(?: |$)){_EPOCH}"
_COUNT = up_to(4294967295)
_DESCRIPTOR = up_to(255, 0)
_OFFSET = up_to(GREATEST, 0)
_SIGNED = f"(?:{_OFFSET}|-{up_to(GREATEST + 1)})"
_MODE, _KIND = "(?:read|write)", "(?:proc|desc)"
_HOST = f"{_NODE}\\.{_INCARNATION}"
_CALL = f"{_HOST}\\.{_COUNT}"
_OWNER = f"(?:p{_PROCESS}|d{up_to(16384)})@{_HOST}"
_SPAN = f"({_OFFSET}) ({_OFFSET})"
_LOCK = f"{_MODE} {_SPAN} {_OWNER}"
_OPERATION = "|".join(
    (
        "spawn",
        f"fork {_PROCESS}",
        f"open {_FILE} (?:r|w|rw)",
        f"(?:dup|close) {_DESCRIPTOR}",
        "exit",
        f"(?:set|wait|query) {_DESCRIPTOR} {_KIND} {_MODE} {_SIGNED} {_SIGNED}",
        f"unlock {_DESCRIPTOR} {_KIND} {_SIGNED} {_SIGNED}",
    )
)
_REPLY = (
    f"reply {_CALL} (?:done|free|interrupted|fd {_DESCRIPTOR}|no-process|exists|bad-fd|"
    "too-many-files|no-locks|invalid|overflow)\n"
)
_LOCK_REPLY = f"reply {_CALL} (?:again|blocked) {_LOCK}\n"


def _rises(spans: tuple[str, ...]) -> bool:
    return int(spans[0]) <= int(spans[1])


def _holds(spans: tuple[str, ...]) -> bool:
    lo, hi, first, last = map(int, spans)
    return first <= lo <= hi <= last


def _messages(epoch: str) -> dict[str, tuple[re.Pattern[str], Optional[Callable[..., bool]]]]:
    """Returns the expression of each kind of message, and what its spans are held to."""
    front = f"{_FILE} {epoch}{_COUNT}"
    kinds = {
        "request": (f"{_FILE} {_CALL} (?:now|wait) {_MODE} {_SPAN} {_SPAN}", _holds),
        "grant": (f"{front} {_CALL} {_MODE} {_SPAN}", _rises),
        "revoke": (f"{front} {_HOST} {_CALL} {_MODE} {_SPAN} {_SPAN}", _holds),
        "taken": (f"{front} {_CALL}", None),
        "released": (f"{front} {_HOST} {_CALL} {_SPAN}", _rises),
        "conflict": (f"{front} {_HOST} {_CALL} {_LOCK}", _rises),
        "deny": (f"{_FILE} {_CALL} {_HOST} {epoch}{_COUNT} {_LOCK}", _rises),
        "freed": (f"{_FILE} {_HOST}", None),
    }
    if epoch:
        kinds["hello"] = (f"{_FILE} {_LATER_EPOCH} {_HOST}", None)
        runs = f"(?: (?:shared|exclusive) {_OFFSET} {_OFFSET})*"
        kinds["report"] = (f"{_FILE} {_LATER_EPOCH} {_HOST} (0|{_COUNT})({runs})", _is_report)
    return {kind: (re.compile(f"{kind} {body}\n"), test) for kind, (body, test) in kinds.items()}


def _is_report(found: tuple[str, ...]) -> bool:
    """Whether a report has as many runs as it says, and they rise and could not be joined."""
    words = found[1].split()
    if len(words) != 3 * int(found[0]):
        return False
    before: tuple[str, int] = ("", -2)
    for level, lo, hi in zip(words[::3], map(int, words[1::3]), map(int, words[2::3])):
        if lo > hi or lo <= before[1] or (lo == before[1] + 1 and level == before[0]):
            return False
        before = (level, hi)
    return True


def _events(version: int) -> dict[str, re.Pattern[str]]:
    kinds = {
        "call": f"{_CALL} {_PROCESS} (?:{_OPERATION})",
        "interrupt": f"{_HOST} {_PROCESS}",
        "retry": f"{_HOST} {_PROCESS}",
        "resend": _FILE,
        "declare": _HOST,
        "restart": _HOST,
        "learn": f"{_FILE} {_HOST}",
    }
    if version == 2:
        kinds["fail-server"] = kinds["start-server"] = f"{_FILE}\\.{_EPOCH}"
    return {kind: re.compile(f"{kind} {body}\n") for kind, body in kinds.items()}


class LineRules:
    """Takes the lines of a journal one by one, behind the first, as long as they may stand."""

    HEAD = re.compile(f"journal [12] nodes {_NODE} files {_FILE} policy (?:wide|exact)\n")

    def __init__(self, version: int) -> None:
        self.position = 0
        self.is_ended = False
        self._may_reply = False
        self._events = _events(version)
        self._messages = _messages(f"{_EPOCH} " if version == 2 else "")
        self._reply = re.compile(_REPLY)
        self._lock_reply = re.compile(_LOCK_REPLY)

    def takes(self, line: str) -> bool:
        """Says whether the line may stand behind those that were taken."""
        if self.is_ended:
            return False
        if line.startswith("send "):
            self._may_reply = False
            return self.position > 0 and self._is_message(line[5:])
        if line.startswith("entry "):
            return self._begins(line)
        if line.startswith("reply "):
            may_reply, self._may_reply = self._may_reply, False
            return may_reply and self._is_reply(line)
        self.is_ended = line == f"end {self.position}\n"
        return self.is_ended

    def _begins(self, line: str) -> bool:
        """Says whether the next entry begins here."""
        front = f"entry {self.position + 1} "
        if not line.startswith(front):
            return False
        self.position += 1
        self._may_reply = True
        event = line[len(front) :]
        kind = event.partition(" ")[0]
        if kind == "deliver":
            return self._is_message(event[8:])
        rule = self._events.get(kind)
        return rule is not None and rule.fullmatch(event) is not None

    def _is_message(self, text: str) -> bool:
        rule, test = self._messages.get(text.partition(" ")[0], (None, None))
        found = rule and rule.fullmatch(text)
        return bool(found) and (test is None or test(found.groups()))

    def _is_reply(self, line: str) -> bool:
        if self._reply.fullmatch(line):
            return True
        found = self._lock_reply.fullmatch(line)
        return found is not None and _rises(found.groups())
