"""One table of the record locks of a file, by the rules of fcntl: who has which bytes in which mode."""
from .reader import GREATEST

NONE, READ, WRITE = 0, 1, 2
NUMBERS = {"read": READ, "write": WRITE}


class Rules:
    """What the calls of a file do to its locks. The bytes are parted where some call begins or ends, so that each part is locked as a whole. A table is
    a tuple with the mode of each owner in each part; the empty one has no locks."""

    def __init__(self, calls):
        spans = [span for call in calls for span in (call.span, call.told and call.told[1]) if span]
        starts = {0} | {first for first, _last in spans} | {last + 1 for _first, last in spans}
        self.starts = sorted(start for start in starts if start <= GREATEST)
        self.ends = [start - 1 for start in self.starts[1:]] + [GREATEST]
        named = {call.owner for call in calls} | {call.told[2] for call in calls if call.told and call.told[2]}
        self.owners = {owner: place * len(self.starts) for place, owner in enumerate(sorted(named))}
        self.place_of = {start: place for place, start in enumerate(self.starts)}
        self.behind = {end: place + 1 for place, end in enumerate(self.ends)}
        self.empty = (NONE,) * (len(self.starts) * len(self.owners))

    def parts(self, span):
        return self.place_of[span[0]], self.behind[span[1]]

    def with_mode(self, table, owner, span, mode):
        row = self.owners[owner]
        first, behind = self.parts(span)
        return table[: row + first] + (mode,) * (behind - first) + table[row + behind :]

    def without_owner(self, table, owner):
        return self.with_mode(table, owner, (0, GREATEST), NONE)

    def is_in_way(self, table, owner, span, mode, other):
        """Whether a lock of the other owner is in the way of the owner's."""
        row = self.owners[other]
        first, behind = self.parts(span)
        return owner != other and any(had == WRITE or had == READ and mode == WRITE for had in table[row + first : row + behind])

    def is_free(self, table, owner, span, mode):
        return not any(self.is_in_way(table, owner, span, mode, other) for other in self.owners)

    def is_region(self, table, owner, span, mode):
        """Whether the span is a longest run of bytes that the owner has in the mode."""
        row = self.owners[owner]
        first, behind = self.parts(span)
        run = table[row + first : row + behind]
        before = first > 0 and table[row + first - 1] == mode
        after = behind < len(self.starts) and table[row + behind] == mode
        return not before and not after and all(had == mode for had in run)

    def regions(self, table):
        """All regions: of each the owner, the bytes and the mode."""
        return list(self.each_region(table))

    def each_region(self, table):
        for owner in self.owners:
            for place, first in enumerate(self.starts):
                for last in self.ends[place:]:
                    for mode in NUMBERS:
                        if self.is_region(table, owner, (first, last), NUMBERS[mode]):
                            yield owner, (first, last), mode

    @staticmethod
    def blocks(region, call):
        """Whether the region is in the way of what the call asks for."""
        owner, (first, last), mode = region
        meets = call.span and first <= call.span[1] and call.span[0] <= last
        return bool(meets) and owner != call.owner and call.mode is not None and "write" in (mode, call.mode)

    def is_denied(self, table, owner, span, mode, told):
        """Whether a lock of another owner is in the way, of which all that is told is so."""
        if told is None:
            return not self.is_free(table, owner, span, mode)
        told_mode, told_span, told_owner = told
        number = NUMBERS[told_mode]
        if WRITE not in (number, mode) or told_span[0] > span[1] or told_span[1] < span[0]:
            return False
        others = [told_owner] if told_owner else self.owners
        return any(other != owner and self.is_region(table, other, told_span, number) for other in others)

    def after(self, table, call):
        """The table behind the call with its reply, or without one as if it were done; None where it has another reply there."""
        mode = NUMBERS.get(call.mode)
        if call.operation == "unlock":
            return self.with_mode(table, call.owner, call.span, NONE)
        if call.operation in ("close", "exit"):
            return self.without_owner(table, call.owner)
        if call.reply in ("again", "blocked"):
            return table if self.is_denied(table, call.owner, call.span, mode, call.told) else None
        if not self.is_free(table, call.owner, call.span, mode):
            return None
        return table if call.reply == "free" else self.with_mode(table, call.owner, call.span, mode)
