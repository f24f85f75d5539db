"""A second model of token servers, by docs/PROTOCOL.md and docs/FORMATS.md alone."""
import collections

GREATEST = 2**63 - 1
TO_NODES = ("grant", "revoke", "deny", "hello")
OF_CALL = ("request", "grant", "taken", "deny")

Request = collections.namedtuple("Request", "call blocking mode required desired")


def meet(one, other):
    """Whether two spans have a byte in common."""
    return one[0] <= other[1] and other[0] <= one[1]


def changed(runs, span, change):
    """The runs (lo, hi, level) after each byte of a span has the level that `change` makes of the one it had, None for none."""
    edges = {edge for lo, hi, _ in runs for edge in (lo, hi + 1)} | {span[0], span[1] + 1}
    made = []
    for lo, after in zip(sorted(edges), sorted(edges)[1:]):
        level = next((level for first, last, level in runs if first <= lo <= last), None)
        level = change(level) if span[0] <= lo <= span[1] else level
        if level and made and made[-1][1] == lo - 1 and made[-1][2] == level:
            made[-1] = (made[-1][0], after - 1, level)
        elif level:
            made.append((lo, after - 1, level))
    return made


def raised(mode):
    return lambda level: "exclusive" if mode == "write" else level or "shared"


def lowered(mode):
    return lambda level: "shared" if mode == "read" and level else None


def conflicting(runs, mode):
    """The runs that conflict with a lock of the mode on another node."""
    return [run for run in runs if mode == "write" or run[2] == "exclusive"]


def around(required, within, barred):
    """The largest span around the required bytes that lies within another and has no byte of the barred spans, which lie beside them."""
    lo = max([within[0]] + [span[1] + 1 for span in barred if span[1] < required[0]])
    return lo, min([within[1]] + [span[0] - 1 for span in barred if required[1] < span[0]])


def numbers(word):
    """The numbers of `N.I` or `N.I.C`."""
    return tuple(int(part) for part in word.split("."))


def name(parts):
    return ".".join(map(str, parts))


class Message:
    """A message by its text in a version: its word, file, call, host, (epoch, number), and the words behind them."""

    def __init__(self, text, version):
        self.text = text
        self.word, file, *rest = text.split(" ")
        self.file = int(file)
        take = {"call": lambda: numbers(rest.pop(0)), "host": lambda: numbers(rest.pop(0)), "number": lambda: number_in(rest, version)}
        take["epoch"] = lambda: (int(rest.pop(0)), 0)
        self.call = self.host = self.number = None
        for part in PARTS[self.word]:
            setattr(self, "number" if part == "epoch" else part, take[part]())
        self.rest = rest
        self.of = self.call[:2] if self.word in OF_CALL else self.host
        self.to_node = self.word in TO_NODES

    def spans(self, at):
        """The spans from the word at this place on."""
        ends = [int(word) for word in self.rest[at:]]
        return list(zip(ends[::2], ends[1::2]))


PARTS = {
    "request": ("call",),
    "grant": ("number", "call"),
    "taken": ("number", "call"),
    "revoke": ("number", "host", "call"),
    "released": ("number", "host", "call"),
    "conflict": ("number", "host", "call"),
    "deny": ("call", "host", "number"),
    "freed": ("host",),
    "hello": ("epoch", "host"),
    "report": ("epoch", "host"),
}


def number_in(words, version):
    epoch = int(words.pop(0)) if version == 2 else 1
    return epoch, int(words.pop(0))


class Row:
    """What a server knows of a node: `command` is the text of the one that has no answer."""

    def __init__(self, incarnation, command=None):
        self.incarnation, self.token, self.count, self.command = incarnation, [], 0, command


class Server:
    """A token server that works, from its first state, or rebuilt where there are live nodes to be heard."""

    def __init__(self, file, epoch, version, nodes):
        self.file, self.epoch, self.version = file, epoch, version
        self.rows, self.dead = {}, {number: 0 for number in nodes}
        self.queue, self.active, self.waiting = [], [], []
        self.sends = []
        if epoch > 1:
            self.dead = {number: node.dead for number, node in nodes.items()}
            for number, node in nodes.items():
                if node.live:
                    host = name((number, node.live))
                    self.rows[number] = Row(node.live, f"hello {file} {epoch} {host}")
            self.sends = self.commands()

    def commands(self):
        return [row.command for _, row in sorted(self.rows.items()) if row.command]

    def awaited(self):
        return [number for number, row in sorted(self.rows.items()) if (row.command or "").startswith("hello ")]

    def forget(self, node, incarnation):
        if node in self.rows and self.rows[node].incarnation <= incarnation:
            del self.rows[node]
        self.dead[node] = max(self.dead[node], incarnation)
        for kept in ("queue", "active", "waiting"):
            requests = [one for one in getattr(self, kept) if not (one.call[0] == node and one.call[1] <= incarnation)]
            setattr(self, kept, requests)

    def requeue(self):
        self.queue, self.waiting = self.queue + self.waiting, []

    def take(self, message):
        """A message comes."""
        self.sends = []
        if message.of[1] <= self.dead[message.of[0]]:
            return
        if message.word == "request":
            self.ask(message)
        elif message.word == "freed":
            if self.row_of(message.of):
                self.requeue()
        elif not self.answered(message):
            return
        self.serve()

    def row_of(self, host):
        row = self.rows.get(host[0])
        return row if row and row.incarnation == host[1] else None

    def ask(self, message):
        call = message.call
        self.forget(call[0], call[1] - 1)
        self.rows.setdefault(call[0], Row(call[1]))
        if any(one.call == call for one in self.active + self.queue):
            return
        own = next((one for one in self.waiting if one.call == call), None)
        self.waiting = [one for one in self.waiting if one != own]
        self.queue.append(own or Request(call, *message.rest[:2], *message.spans(2)))

    def answered(self, message):
        """Whether the message answers the command that has no answer; what it changes."""
        row = self.row_of(message.of)
        command = Message(row.command, self.version) if row and row.command else None
        answers = {"taken": "grant", "released": "revoke", "conflict": "revoke", "report": "hello"}[message.word]
        if not command or command.word != answers or command.number != message.number:
            return False
        row.command = None
        if message.word == "released":
            row.token = changed(row.token, message.spans(0)[0], lowered(command.rest[0]))
        elif message.word == "report":
            levels, ends = message.rest[1::3], [int(word) for at, word in enumerate(message.rest[1:]) if at % 3]
            row.token = list(zip(ends[::2], ends[1::2], levels))
        else:
            self.end(message)
        return True

    def end(self, message):
        """The request that a taken or a conflict names is served no longer."""
        ended = [one for one in self.active if one.call == message.call]
        self.active = [one for one in self.active if one.call != message.call]
        for request in ended if message.word == "conflict" else []:
            if request.blocking == "wait":
                self.waiting.append(request)
            else:
                number, host, call = self.text_of(message.number), name(message.host), name(message.call)
                self.sends.append(f"deny {self.file} {call} {host} {number} {' '.join(message.rest)}")

    def text_of(self, number):
        return name(number).replace(".", " ") if self.version == 2 else str(number[1])

    def serve(self):
        if self.awaited():
            return
        staying = []
        for request in self.queue:
            is_met = any(meet(request.required, one.required) for one in self.active + staying)
            (staying if is_met else self.active).append(request)
        self.queue = staying
        for request in self.active:
            self.serve_one(request)

    def obstacle(self, request):
        """The least other node whose row is in the way of the request, or else its own."""
        for node, row in sorted(self.rows.items()):
            if node != request.call[0] and any(meet(run, request.required) for run in conflicting(row.token, request.mode)):
                return node
        return request.call[0]

    def serve_one(self, request):
        node, call = self.obstacle(request), name(request.call)
        row = self.rows[node]
        if row.command:
            return
        span = around(request.required, request.desired, [one.required for one in self.active if one != request])
        row.count += 1
        number = self.text_of((self.epoch, row.count))
        if node == request.call[0]:
            others = [run for other, its in self.rows.items() if other != node for run in conflicting(its.token, request.mode)]
            span = around(request.required, span, others)
            row.token = changed(row.token, span, raised(request.mode))
            row.command = f"grant {self.file} {number} {call} {request.mode} {span[0]} {span[1]}"
        else:
            host = name((node, row.incarnation))
            ends = f"{request.required[0]} {request.required[1]} {span[0]} {span[1]}"
            row.command = f"revoke {self.file} {number} {host} {call} {request.mode} {ends}"
        self.sends.append(row.command)

    def resend(self):
        self.sends = self.commands()
        self.requeue()
        self.serve()

    def learn(self, host):
        self.sends = []
        self.forget(*host)
        self.requeue()
        self.serve()
