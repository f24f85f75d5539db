"""Small random histories: what clients of one table of locks see whose calls overlap, or of one that differs from it by some rules; in half of them some replies are
others than those of the table."""
from .reader import GREATEST, Call
from .table import NUMBERS, Rules

OPERATIONS = ("set", "set", "set", "wait", "query", "query", "unlock", "unlock", "close")
NAMES = ("p1", "p2", "d1", "é-3", "p")
BYTES = ([0, 1, 2], [0, 1, 2, 3], [7, 8, 9], [0, 4096, GREATEST], [GREATEST - 1, GREATEST])


def segment(random, span):
    """START and LEN of the span, in one of the ways in which they can be said."""
    first, last = span
    ways = [(first, 0)] if last == GREATEST else [(first, last - first + 1), (last + 1, first - last - 1)]
    return random.choice(ways)


class History:
    """A history that is being made: its calls with the times at which they happen, None for one that does not, and what they are answered."""

    def __init__(self, random, rules):
        self.random, self.rules = random, rules
        self.bytes = random.choice(BYTES)
        self.most, self.lengths = random.choice(((5, (3, 12, 25)), (3, (12, 25)), (3, ()), (8, (3, 6))))
        self.files = ["f"] if random.random() < 0.8 else ["f", "g"]
        self.machines = {"a": 0, "b": random.choice((0, 1, 6))} if random.random() < 0.2 else {}
        self.owners = [name + (f"@{random.choice(list(self.machines))}" if self.machines else "") for name in NAMES[: random.randint(2, 5)]]
        self.calls, self.happens, self.losses = [], [], []
        self.operations = OPERATIONS + ("wait",) * 6 if "wait-drops" in rules else OPERATIONS
        for owner in self.owners:
            self.add_calls(owner, self.most < 8 and random.random() < 0.2)
        for _ in range(random.choice((0, 0, 0, 1))):
            begin = random.randint(0, 25)
            self.losses.append((begin, begin + random.randint(0, 9), random.choice(self.files)))
        self.answer()

    def span(self):
        first = self.random.randrange(len(self.bytes))
        last = self.random.randrange(first, len(self.bytes))
        behind = self.bytes[last + 1] - 1 if last + 1 < len(self.bytes) else self.random.choice((self.bytes[last], GREATEST))
        return self.bytes[first], behind

    def add_calls(self, owner, has_threads):
        """The calls of an owner, which overlap where it has threads, and its exit."""
        random, time, gone = self.random, self.random.randint(0, 8), False
        first = len(self.calls)
        for _ in range(random.randint(1, self.most)):
            begin = random.randint(0, 20) if has_threads else time
            operation, length = self.operation_and_length(len(self.calls) == first)
            end = begin + random.randint(0, length)
            happens = random.uniform(begin, end)
            if random.random() < 0.1:
                end, happens, gone = None, random.choice((None, random.uniform(begin, begin + 20))), True
            self.add(owner, operation, begin, end, happens)
            time = (end or begin) + random.randint(0, 3)
            if gone and not has_threads:
                break
        if random.random() < (0.7 if gone else 0.4):
            self.add_exit(owner, first)

    def operation_and_length(self, is_first):
        """What a call does, and how long it takes at most. Where no lengths are given each owner sets a lock, and then come long calls of all."""
        if self.lengths:
            return self.random.choice(self.operations), self.random.choice(self.lengths)
        return ("set", 3) if is_first else (self.random.choice(("set", "query", "query", "unlock", "unlock")), self.random.choice((8, 30)))

    def add(self, owner, operation, begin, end, happens):
        mode = self.random.choice(("read", "write", "write")) if operation in ("set", "wait", "query") else None
        span = self.span() if operation != "close" else None
        unused = operation == "close" and self.random.random() < 0.4
        self.calls.append(Call(0, begin, end, owner, operation, self.random.choice(self.files), mode, span, None, None, unused))
        self.happens.append(happens)

    def add_exit(self, owner, first):
        """The exit of the owner of the calls from the first on: it happens at a time of its own in each file, behind them. What has no reply and has not happened by
        then doesn't happen."""
        random, mine = self.random, range(first, len(self.calls))
        latest = max(self.calls[index].begin for index in mine)
        ends = max(self.calls[index].end or latest for index in mine)
        begin = random.randint(0, max(latest, ends) + 2)
        end = max(begin, latest, random.choice((latest, ends))) + random.randint(1, 6)
        gone = random.uniform(max(begin, latest), end)
        for index in mine:
            call = self.calls[index]
            if call.end is not None and self.happens[index] >= gone:
                self.happens[index] = random.uniform(call.begin, gone)
            elif call.end is None and (self.happens[index] or 0) >= gone:
                self.happens[index] = None
        self.calls.append(Call(0, begin, None if random.random() < 0.1 else end, owner, "exit", None, None, None, None, None))
        self.happens.append({file: random.uniform(gone, end) for file in self.files})

    def events(self, file):
        """What happens in a file, each with its time: a call, by its index, which has its reply then; or an owner loses what it has in some bytes."""
        random = self.random
        for index, (call, time) in enumerate(zip(self.calls, self.happens)):
            time = time[file] if isinstance(time, dict) else time
            if time is None or call.file not in (file, None):
                continue
            if "wait-drops" in self.rules and call.operation == "wait":
                yield random.uniform(call.begin, time), None, (call.owner, call.span)
            yield time, index, None
        for begin, end, of_file in self.losses if "lost-at" in self.rules else ():
            for owner in self.owners if of_file == file else ():
                yield random.uniform(begin, end), None, (owner, (0, GREATEST))

    def answer(self):
        """Gives each call that happens and has an end the reply of its file's table at that time."""
        for file in self.files:
            rules = Rules(self.calls)
            table = rules.empty
            for _time, index, lost in sorted(self.events(file), key=lambda event: event[0]):
                if lost:
                    table = rules.with_mode(table, *lost, 0)
                    continue
                call = self.reply(rules, table, self.calls[index])
                self.calls[index] = call if call.end is not None else self.calls[index]
                if call.reply != "interrupted" and not (call.unused and "close-own-descriptor" in self.rules):
                    table = rules.after(table, call) or table

    def reply(self, rules, table, call):
        if call.operation in ("unlock", "close", "exit"):
            return call._replace(reply="done")
        if call.mode == "read" and call.operation != "wait" and "stale-read-denial" in self.rules and self.random.random() < 0.3:
            return call._replace(reply="blocked" if call.operation == "query" else "again")
        if call.operation == "query" and "no-query" in self.rules and self.random.random() < 0.5:
            return call._replace(reply=self.random.choice(("free", "blocked")))
        if rules.is_free(table, call.owner, call.span, NUMBERS[call.mode]):
            return call._replace(reply="free" if call.operation == "query" else "done")
        if call.operation == "wait":
            return call._replace(reply="interrupted")
        told = self.told(rules, table, call) if self.random.random() < 0.6 else None
        return call._replace(reply="blocked" if call.operation == "query" else "again", told=told)

    def told(self, rules, table, call):
        """One of the regions that are in the way."""
        ends = [(first, last) for place, first in enumerate(rules.starts) for last in rules.ends[place:]]
        found = []
        for other in rules.owners:
            for span in ends:
                for mode in ("read", "write"):
                    told = (mode, span, other)
                    if rules.is_denied(table, call.owner, call.span, NUMBERS[call.mode], told):
                        found.append(told)
        mode, span, other = self.random.choice(found)
        return mode, span, self.random.choice((other, other, None))

    def change(self):
        """Gives a call with a reply another one, which may be as right."""
        random = self.random
        places = [index for index, call in enumerate(self.calls) if call.end is not None and call.operation in ("set", "wait", "query")]
        if not places:
            return
        index = random.choice(places)
        call = self.calls[index]
        told = (random.choice(("read", "write")), self.span(), random.choice([*self.owners, None]))
        denial = "blocked" if call.operation == "query" else "again"
        replies = [("free", None)] if call.operation == "query" else [("done", None)]
        replies += [("interrupted", None)] if call.operation == "wait" else [(denial, None), (denial, told), (denial, told)]
        reply, told = random.choice(replies)
        self.calls[index] = call._replace(reply=reply, told=told)

    def line(self, call):
        words = ["call", call.begin, "-" if call.end is None else call.end, call.owner, call.operation]
        words += [word for word in (call.file, call.mode) if word]
        words += segment(self.random, call.span) if call.span else ["unused"] if call.unused else []
        if call.end is not None and (call.operation != "exit" or self.random.random() < 0.5):
            words += ["->", call.reply or "done"]
        if call.told:
            mode, span, owner = call.told
            words += [mode, *segment(self.random, span), owner or "?"]
        if call.operation != "exit" and call.end is not None and self.random.random() < 0.03:
            words[words.index("->") + 1 :] = ["refused", "ENOLCK"]
        return " ".join(map(str, words))

    def text(self):
        lines = [self.line(call) for call in self.calls] + [f"lost {begin} {end} {file}" for begin, end, file in self.losses]
        self.random.shuffle(lines)
        for _ in range(self.random.randrange(3)):
            lines.insert(self.random.randrange(len(lines) + 1), self.random.choice(("note 5 7 a fault", "# a remark", "")))
        head = [f"history 1 clock {self.random.choice(('ns', 'us', 'order'))}"]
        return "".join(line + "\n" for line in head + [f"machine {machine} skew {skew}" for machine, skew in self.machines.items()] + lines)


def make(random, rules=()):
    """The text of a history, of a table that differs by these rules from one."""
    history = History(random, rules)
    for _ in range(random.choice((0, 0, 0, 1, 1, 2))):
        history.change()
    return history.text()
