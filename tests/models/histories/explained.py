"""Whether one table of record locks explains what clients saw of a file, by the definition: whether there is an order of calls so that

- the table, which has no lock at first, gives each reply where its call stands;
- no call stands twice, and each that was answered does stand;
- no call stands behind one that began after its own end;
- nothing of an owner stands behind its exit, and where an exit stands all calls of its owner that were answered do.

Up to a time: only calls that began by then stand, and those that were answered by then have to. A query without a reply, and a call that was interrupted
or refused, says nothing and stands nowhere. An exit stands in each file in which its owner has a call.

A lock manager may differ from one table by rules: then some calls say less, a wait is an unlock and a set, and of a loss each owner of the file has a call."""
from .reader import Call
from .table import Rules

RULES = ("wait-drops", "close-own-descriptor", "no-query", "stale-read-denial", "lost-at")


def says_something(call):
    """Whether the call, which is no exit, says something of locks."""
    if call.operation == "query" and call.reply is None:
        return False
    return call.reply not in ("interrupted", "refused")


def steps(call, allowed):
    """What the call, which is no exit, is taken for: no call, one, or two where a wait gives back its owner's own locks first."""
    is_denied = call.reply in ("again", "blocked")
    silenced = {
        "no-query": call.operation == "query",
        "stale-read-denial": is_denied and call.mode == "read",
        "close-own-descriptor": call.unused,
    }
    if any(silenced[rule] for rule in allowed if rule in silenced):
        return []
    if call.operation == "wait" and "wait-drops" in allowed and call.reply != "refused":
        unlock = call._replace(operation="unlock", mode=None, reply=call.reply and "done")
        return [unlock] if call.reply == "interrupted" else [unlock, call._replace(follows=call.end is not None)]
    return [call] if says_something(call) else []


def losses_of(history, file, of_file):
    """The calls by which the owners of the calls of a file lose what they have there, but for those that had exited before."""
    ends = {call.owner: call.end for call in history.calls if call.operation == "exit" and call.end is not None}
    owners = list(dict.fromkeys(call.owner for call in of_file))
    for loss in history.losses:
        for owner in owners if loss.file == file else ():
            if loss.begin <= ends.get(owner, loss.begin):
                yield Call(loss.line, loss.begin, loss.end, owner, "close", file, None, None, "done", None)


def widened(call, machines):
    """The call in all the time in which it may have been made, where the clock of its owner's machine is off by at most its skew."""
    skew = machines.get(call.owner.partition("@")[2], 0)
    return call._replace(begin=max(0, call.begin - skew), end=None if call.end is None else call.end + skew)


def files_of(history, allowed=()):
    """The calls of each file in the order of their lines, behind them what their owners lost, and behind that the exits of these."""
    files = {}
    for call in history.calls:
        if call.operation != "exit":
            files.setdefault(call.file, []).extend(steps(call, allowed))
    for file, of_file in files.items():
        lost = list(losses_of(history, file, of_file)) if "lost-at" in allowed else []
        owners = {call.owner for call in of_file}
        exits = [call for call in history.calls if call.operation == "exit" and call.owner in owners]
        files[file] = [widened(call, history.machines) for call in of_file + lost + exits]
    return files


def indexes(calls, words):
    """Which calls of a file the words of an order name, or None where one names none: of the calls of a line the next one, or the one whose number stands behind a dot."""
    found, named, places = [], {}, {}
    for place, call in enumerate(calls):
        places.setdefault(str(call.line), []).append(place)
    for word in words:
        line, dot, number = word.partition(".")
        named[line] = int(number) if dot else named.get(line, 0) + 1
        if not 1 <= named[line] <= len(places.get(line, ())):
            return None
        found.append(places[line][named[line] - 1])
    return found


def is_order(calls, order):
    """Whether the calls in this order, which has their indexes, explain what clients saw of the file."""
    rules, latest, gone, stood = Rules(calls), 0, set(), set()
    table = rules.empty
    for index in order:
        call = calls[index]
        latest = max(latest, call.begin)
        table = rules.after(table, call)
        if table is None or index in stood or call.owner in gone or call.end is not None and call.end < latest or call.follows and index - 1 not in stood:
            return False
        stood.add(index)
        if call.operation == "exit":
            gone.add(call.owner)
    return all(index in stood for index, call in enumerate(calls) if call.end is not None)


class Orders:
    """All orders of the calls of a file, as far as they differ: which calls stand, and what the table is then. Sets of calls are bits of a number."""

    def __init__(self, calls):
        self.calls, self.rules = calls, Rules(calls)
        self.ended_before = [self.those(lambda other, call=call: other.end is not None and other.end < call.begin) for call in calls]
        self.first_of = [1 << index - 1 if call.follows else 0 for index, call in enumerate(calls)]
        self.exits_of = [self.those(lambda other, call=call: other.operation == "exit" and other.owner == call.owner) for call in calls]
        self.answered_of = [self.those(lambda other, call=call: other.owner == call.owner and other.end is not None) for call in calls]

    def those(self, hold):
        return sum(1 << index for index, call in enumerate(self.calls) if hold(call))

    def reached(self):
        """Each set of calls that some order has which breaks no rule, with the table behind it. A call that ended before another one begins has to stand, and may not
        stand behind it, so it stands before it: no order goes on otherwise."""
        start = (0, self.rules.empty)
        seen, left = {start}, [start]
        while left:
            stand, table = left.pop()
            for index, call in enumerate(self.calls):
                before = self.ended_before[index] | self.first_of[index]
                if stand >> index & 1 or stand & before != before or stand & self.exits_of[index]:
                    continue
                after = self.rules.after(table, call)
                state = (stand | 1 << index, after)
                if after is not None and state not in seen:
                    seen.add(state)
                    left.append(state)
        return [(stand, table) for stand, table in seen if self.are_whole(stand)]

    def are_whole(self, stand):
        """Whether each exit that stands has all answered calls of its owner with it."""
        exits = (index for index, call in enumerate(self.calls) if call.operation == "exit" and stand >> index & 1)
        return all(stand & self.answered_of[index] == self.answered_of[index] for index in exits)

    def latest_begin(self, stand):
        return max((call.begin for index, call in enumerate(self.calls) if stand >> index & 1), default=0)

    def first_unexplained(self):
        """The first end of a call up to which no order explains the calls; None where some order explains them all."""
        found = {(self.latest_begin(stand), stand) for stand, _table in self.reached()}
        for end in sorted({call.end for call in self.calls if call.end is not None}):
            answered = self.those(lambda call, end=end: call.end is not None and call.end <= end)
            if not any(latest <= end and stand & answered == answered for latest, stand in found):
                return end
        return None


def first_unexplained(calls):
    """Of the calls of a file that no order explains, when that is first so, and the lines of those that end then."""
    end = Orders(calls).first_unexplained()
    return None if end is None else (end, [call.line for call in calls if call.end == end])


def verdict(files):
    """That by file, of those that no order explains."""
    return {file: found for file, calls in files.items() if (found := first_unexplained(calls))}
