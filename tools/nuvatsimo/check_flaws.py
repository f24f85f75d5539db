"""What is wrong in a line of a script, and in which column."""

from __future__ import annotations

import re
from typing import NamedTuple, Optional

from nuvatsimo.check_hints import hint_of
from nuvatsimo.script_forms import Place, walk

NO_LINE_FEED = "no line feed stands at the end of the last line"
NO_CLUSTER = "expected the cluster line, found the end of the script"
_END_OF_LINE = "the end of the line"
_COMMENT = "a comment stands behind the line, not in a line of its own"

# How many characters of a text are shown at most.
_MOST_SHOWN = 40

# Characters that are not seen, and other blanks than the space.
_ODD = re.compile(
    "[\x00-\x1f\x7f-\x9f\xa0\u1680\u2000-\u200a\u2028\u2029\u202f\u205f\u3000\ufeff]"
)


class Flaw(NamedTuple):
    """What is wrong in a line, in which column, and whether the line is only too short."""

    column: int
    reason: str
    is_at_end: bool = False


def flaw_of(first: Place, line: str) -> Flaw:
    """Returns what is wrong in a line that is known to be bad where `first` is expected."""
    flaw = _flaw_of_ends(line)
    if flaw:
        return flaw
    front, mark, _ = line.partition(" #")
    if not mark:
        unknown = Flaw(1, f"expected a line of a script, found {_shown(line)}")
        return _flaw_of_body(first, line) or unknown
    flaw = _flaw_of_body(first, front.rstrip(" "))
    return flaw if flaw and not flaw.is_at_end else Flaw(len(front) + 2, _COMMENT)


def _flaw_of_ends(line: str) -> Optional[Flaw]:
    """Finds a byte order mark, a carriage return or a blank at the ends of a line."""
    if line.startswith("\ufeff"):
        return Flaw(1, "a byte order mark stands at the beginning")
    if line.endswith("\r"):
        return Flaw(len(line), "a carriage return stands before the line feed")
    if line.startswith(" "):
        return Flaw(1, "a blank stands at the beginning of the line")
    if line.endswith(" "):
        return Flaw(len(line.rstrip(" ")) + 1, "a blank stands at the end of the line")
    return None


def _flaw_of_body(first: Place, body: str) -> Optional[Flaw]:
    """Finds what is wrong in what a line says, if that is known."""
    if "\t" in body:
        return Flaw(body.index("\t") + 1, "a tab stands in the line")
    if "  " in body:
        return Flaw(body.index("  ") + 1, "two blanks stand between words")
    odd = _ODD.search(body)
    if odd:
        reason = "a control character or another kind of blank stands in the line"
        return Flaw(odd.start() + 1, reason)
    return _flaw_of_words(first, body)


def _flaw_of_words(first: Place, body: str) -> Optional[Flaw]:
    """Finds the first word that may not stand where it does, or that a word is missing."""
    words = body.split(" ")
    values, place = walk(first, words)
    if len(values) == len(words):
        reason = f"expected {place.told()}, found {_END_OF_LINE}" if place else ""
        return Flaw(len(body) + 1, reason, True) if place else None
    word = words[len(values)]
    column = 1 + sum(len(passed) + 1 for passed in words[: len(values)])
    hint = hint_of(place, word)
    expected = place.told() if place else _END_OF_LINE
    reason = f"expected {expected}, found {_shown(word)}"
    return Flaw(column, f"{reason} ({hint})" if hint else reason)


def _shown(text: str) -> str:
    """Returns a text in quotes, or its beginning where it is long."""
    if len(text) > _MOST_SHOWN:
        return f'text that begins with "{text[:_MOST_SHOWN]}"'
    return f'"{text}"'
