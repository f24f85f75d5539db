"""A reading of histories by docs/FORMATS.md alone: their calls, or the first bad line with the column of its first word that may not stand there."""
import collections

GREATEST = (1 << 63) - 1
UNITS = ("ns", "us", "order")
MODES = ("read", "write")
# The words of a reply with which a call may be answered; a LOCK may stand behind `again` and `blocked`, a WORD has to behind `refused`.
REPLIES = {
    "set": ("done", "again", "interrupted", "refused"),
    "wait": ("done", "interrupted", "refused"),
    "unlock": ("done", "refused"),
    "query": ("free", "blocked", "refused"),
    "close": ("done", "refused"),
    "exit": ("done",),
}
HAVE_MODE = ("set", "wait", "query")
ANSWERS = ("done", "again", "free", "blocked", "interrupted", "refused")

# A call as its line says it. An exit has no file, an unlock no mode; reply and told are None where there is none; told is (mode, span, owner) with
# None for an owner that is not told. A close may be of a descriptor that was unused. Of a call that is taken for two the second follows the first.
Call = collections.namedtuple("Call", "line begin end owner operation file mode span reply told unused follows", defaults=(False, False))
Loss = collections.namedtuple("Loss", "line begin end file")
History = collections.namedtuple("History", "unit machines calls losses")


class Bad(Exception):
    """The first bad line, and the column of its first word that may not stand there."""

    def __init__(self, column, line=None):
        super().__init__(line, column)
        self.line, self.column = line, column


class Words:
    """The words of a line, one after the other. One space parts two words, so another space leaves a place where a word is missing."""

    def __init__(self, line):
        self.line, self.place = line, 0

    def column(self):
        """The column of the next word, or behind the last character."""
        return min(self.place, len(self.line)) + 1

    def are_left(self):
        return self.place <= len(self.line)

    def take(self):
        """The next word, and its column."""
        column = self.column()
        word = self.line[self.place :].split(" ", 1)[0]
        self.place += len(word) + 1
        if not word:
            raise Bad(column)
        return word, column

    def take_one_of(self, words):
        word, column = self.take()
        if word not in words:
            raise Bad(column)
        return word

    def take_number(self, least, most):
        word, column = self.take()
        digits = word.removeprefix("-")
        if not (digits.isascii() and digits.isdigit()) or str(int(digits)) != digits or word == "-0" or not least <= int(word) <= most:
            raise Bad(column)
        return int(word)

    def end(self):
        if self.are_left():
            raise Bad(self.column())


class Reader:
    """What was read of a history."""

    def __init__(self):
        self.unit, self.machines, self.calls, self.losses = None, {}, [], []
        self.begins, self.exits = {}, {}

    def take_line(self, number, line):
        if line == "" or line[0] == "#":
            return
        words = Words(line)
        first, column = words.take()
        if self.unit is None:
            self.take_head(first, column, words)
        elif first == "machine" and not self.calls:
            self.take_machine(words)
        elif first == "call":
            self.take_call(number, words)
        elif first == "lost":
            self.losses.append(Loss(number, *self.take_times(words, False), words.take()[0]))
            words.end()
        elif first != "note":
            raise Bad(column)

    def take_head(self, first, column, words):
        if first != "history":
            raise Bad(column)
        words.take_one_of(("1",))
        words.take_one_of(("clock",))
        unit = words.take_one_of(UNITS)
        words.end()
        self.unit = unit

    def take_machine(self, words):
        name, column = words.take()
        if name in self.machines:
            raise Bad(column)
        words.take_one_of(("skew",))
        skew = words.take_number(0, GREATEST)
        words.end()
        self.machines[name] = skew

    def take_owner(self, words):
        """The name of an owner: any word but `?`, and with `@` and a machine behind it where there are machines."""
        name, column = words.take()
        front, at, machine = name.partition("@")
        if front == "" or name == "?" or (at or self.machines) and machine not in self.machines:
            raise Bad(column)
        return name, column

    def take_span(self, words):
        """The bytes from START on that LEN says, as in `struct flock`: the first and the last."""
        column = words.column()
        start = words.take_number(-GREATEST - 1, GREATEST)
        length = words.take_number(-GREATEST - 1, GREATEST)
        first, last = min(start, start + length), max(start, start + length) - 1
        if length == 0:
            last = GREATEST
        if first < 0 or last > GREATEST:
            raise Bad(column)
        return first, last

    @staticmethod
    def take_times(words, may_be_open):
        """BEGIN and END, which is None where it is `-` and may be."""
        begin = words.take_number(0, GREATEST)
        if may_be_open and words.line[words.place :].split(" ", 1)[0] == "-":
            words.take()
            return begin, None
        column = words.column()
        end = words.take_number(0, GREATEST)
        if end < begin:
            raise Bad(column)
        return begin, end

    def take_call(self, number, words):
        begin, end = self.take_times(words, True)
        owner, column = self.take_owner(words)
        over = self.exits.get(owner)
        if over is not None and begin > over:
            raise Bad(column)
        self.begins[owner] = max(begin, self.begins.get(owner, 0))
        column = words.column()
        operation = words.take_one_of(REPLIES)
        file = mode = span = None
        if operation == "exit":
            self.take_exit(owner, end, column)
        else:
            file = words.take()[0]
        unused = operation == "close" and words.line[words.place :].split(" ", 1)[0] == "unused"
        if unused:
            words.take()
        if operation in HAVE_MODE:
            mode = words.take_one_of(MODES)
        if operation not in ("close", "exit"):
            span = self.take_span(words)
        reply, told = self.take_reply(operation, end, words)
        words.end()
        self.calls.append(Call(number, begin, end, owner, operation, file, mode, span, reply, told, unused))

    def take_exit(self, owner, end, column):
        """An owner exits once, and no call of it begins behind the end of that."""
        if owner in self.exits or end is not None and end < self.begins[owner]:
            raise Bad(column)
        self.exits[owner] = GREATEST if end is None else end

    def take_reply(self, operation, end, words):
        if not words.are_left():
            if end is not None and operation != "exit":
                raise Bad(words.column())
            return None, None
        column = words.column()
        words.take_one_of(("->",))
        if end is None:
            raise Bad(column)
        reply = words.take_one_of([word for word in ANSWERS if word in REPLIES[operation]])
        told = None
        if reply == "refused":
            words.take()
        elif reply in ("again", "blocked") and words.are_left():
            mode = words.take_one_of(MODES)
            span = self.take_span(words)
            owner = words.take()[0] if words.line[words.place :].split(" ", 1)[0] == "?" else self.take_owner(words)[0]
            told = (mode, span, None if owner == "?" else owner)
        return reply, told


def read(text):
    """The history that the text writes. Raises Bad."""
    reader = Reader()
    lines = text.split("\n")
    for number, line in enumerate(lines[:-1], 1):
        try:
            reader.take_line(number, line)
        except Bad as bad:
            bad.line = number
            raise
    if lines[-1]:
        raise Bad(len(lines[-1]) + 1, len(lines))
    if reader.unit is None:
        raise Bad(1, len(lines))
    return History(reader.unit, reader.machines, reader.calls, reader.losses)
