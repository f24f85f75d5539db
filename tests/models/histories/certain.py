"""What is certain of the calls of a file without any search: that a reply contradicts what the other owners' own calls say of their locks. What an owner has
follows from its own calls alone, which each stand between their begin and their end."""
from .table import NONE, NUMBERS, READ, WRITE, Rules


def mode_after(call):
    """The mode that an owner has in the bytes of its call behind it; None where it changes nothing."""
    if call.operation in ("unlock", "close", "exit"):
        return NONE
    return NUMBERS[call.mode] if call.operation != "query" and call.reply in (None, "done") else None


class Certain:
    """What is certain of the owners' locks by these calls. Replies to other calls may be looked at too, which have to be named here."""

    def __init__(self, calls, others=()):
        self.rules = Rules([*calls, *others])
        self.changes, self.exits = {owner: [] for owner in self.rules.owners}, {}
        for call in calls:
            mode = mode_after(call)
            if mode is None:
                continue
            first, behind = self.rules.parts(call.span) if call.span else (0, len(self.rules.starts))
            self.changes[call.owner].append((call.begin, call.end, first, behind, mode))
            if call.operation == "exit":
                self.exits[call.owner] = call.end

    def possible(self, owner, part, begin, end):
        """The modes that the owner may have in a part of the bytes at some time between begin and end: those of each change that may be the last one before such a
        time, or none where none need be before."""
        if self.exits.get(owner) is not None and self.exits[owner] < begin:
            return {NONE}
        here = [change for change in self.changes[owner] if change[2] <= part < change[3] and change[0] <= end]
        latest = max((change[0] for change in here if change[1] is not None and change[1] < begin), default=None)
        if latest is None:
            return {change[4] for change in here} | {NONE}
        return {change[4] for change in here if change[1] is None or change[1] >= min(begin, latest)}

    def may_be_region(self, call, told):
        """Whether the owner that is told may have had just that region, or some other owner where none is told."""
        mode, span, named = NUMBERS[told[0]], told[1], told[2]
        first, behind = self.rules.parts(span)
        times = call.begin, call.end
        for owner in [named] if named else self.rules.owners:
            if owner == call.owner or any(mode not in self.possible(owner, part, *times) for part in range(first, behind)):
                continue
            beside = [part for part in (first - 1, behind) if 0 <= part < len(self.rules.starts)]
            if not any(self.possible(owner, part, *times) == {mode} for part in beside):
                return True
        return False

    def contradicts(self, call):
        """Whether the reply is wrong wherever the call stands. Of a set, a wait and a query, with a reply."""
        in_way = {WRITE} if call.mode == "read" else {READ, WRITE}
        first, behind = self.rules.parts(call.span)
        others = [owner for owner in self.rules.owners if owner != call.owner]
        modes = (self.possible(owner, part, call.begin, call.end) for owner in others for part in range(first, behind))
        if call.reply in ("done", "free"):
            return any(found <= in_way for found in modes)
        if call.told:
            mode, span, _owner = call.told
            meets = span[0] <= call.span[1] and call.span[0] <= span[1]
            return not meets or NUMBERS[mode] not in in_way or not self.may_be_region(call, call.told)
        return not any(found & in_way for found in modes)
