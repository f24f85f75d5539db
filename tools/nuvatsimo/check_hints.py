"""What may help one who wrote a word of a script that may not stand where it does."""

from __future__ import annotations

from typing import Iterable, Optional


from nuvatsimo.script_forms import CLUSTER_LINE, COMMAND, KIND, LENGTH, MODE, OPERATION
from nuvatsimo.script_forms import Choice, Number, Offset, Place

CLUSTER_LINE_FIRST = "the cluster line stands once, before all other lines"
BEHIND_CALL = "an operation stands behind call N PID"
TO_THE_END = "a length of 0 goes to the end of the file"

# The longest word, in bytes, that is compared with others.
_LONGEST = 40

# What other systems call the words that may stand at a place.
_SYNONYMS = {
    OPERATION.name: {
        b"lock": "set",
        b"f_setlk": "set",
        b"f_setlkw": "wait",
        b"f_getlk": "query",
    },
    KIND.name: {b"posix": "proc", b"ofd": "desc"},
    MODE.name: {b"shared": "read", b"exclusive": "write"},
}


def hint_of(place: Optional[Place], word: str) -> Optional[str]:
    """Returns what may help where a word may not stand. At the end of a line nothing may."""
    if place is None:
        return None
    hint = _hint_of_place(place, word)
    if hint:
        return hint
    meant = _meant(place, word)
    return f'did you mean "{meant}"?' if meant else _hint_of_rule(place, word)


def _hint_of_place(place: Place, word: str) -> Optional[str]:
    """Helps where the word has its place elsewhere."""
    if place == CLUSTER_LINE and word in COMMAND.forms:
        return CLUSTER_LINE_FIRST
    if place == COMMAND and word in CLUSTER_LINE.forms:
        return CLUSTER_LINE_FIRST
    if place == COMMAND and word in OPERATION.forms:
        return BEHIND_CALL
    return None


def _meant(place: Place, word: str) -> Optional[str]:
    """Returns the word that may have been meant."""
    if not isinstance(place, Choice):
        return None
    synonym = _SYNONYMS.get(place.name, {}).get(_lowered(word))
    return synonym or nearest(word, place.forms)


def _hint_of_rule(place: Place, word: str) -> Optional[str]:
    """Helps where the word is like none that has a place."""
    if place == CLUSTER_LINE:
        return CLUSTER_LINE_FIRST
    if place == LENGTH and _lowered(word) == b"eof":
        return TO_THE_END
    return _hint_of_number(word) if isinstance(place, (Number, Offset)) else None


def _hint_of_number(word: str) -> Optional[str]:
    """Helps one who wrote this for a number."""
    digits = word[1:] if word.startswith("-") else word
    if word.startswith("+"):
        return "numbers have no leading plus sign"
    if word == "-0":
        return "zero has no sign"
    if digits.startswith(("0x", "0X")):
        return "numbers are decimal"
    if len(digits) > 1 and digits.startswith("0"):
        return "numbers have no leading zeros"
    return None


def nearest(word: str, words: Iterable[str]) -> Optional[str]:
    """Returns the word that this one is most like, if it is like one.

    It is where the two are the same but for capitals, or where at most a third of the letters
    are wrong, missing, more, or exchanged with the next.
    """
    if len(word.encode()) > _LONGEST:
        return None
    least = max(len(word), 3) // 3
    found = None
    for other in words:
        apart = 0 if _lowered(word) == _lowered(other) else distance(word, other)
        if apart <= least and apart < len(other):
            least = max(apart - 1, 0)
            found = other
    return found


def distance(one: str, other: str) -> int:
    """Counts the changes that make one word of another: a letter more, less or another, or two
    letters exchanged that stand side by side and are not changed again."""
    before: list[int] = []
    row = list(range(len(other) + 1))
    for i, letter in enumerate(one):
        above, row, older = row, [i + 1], before
        before = above
        for j, there in enumerate(other):
            best = min(above[j] + (letter != there), above[j + 1] + 1, row[j] + 1)
            if i and j and letter == other[j - 1] and one[i - 1] == there:
                best = min(best, older[j - 1] + 1)
            row.append(best)
    return row[-1]


def _lowered(word: str) -> bytes:
    """Returns a word with small letters in place of the capitals of ASCII."""
    return word.encode("utf-8", "surrogatepass").lower()


