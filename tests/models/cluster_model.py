"""A second model of a cluster, by docs/FORMATS.md and docs/PROTOCOL.md alone: what holds after each entry of a journal, and the lines of it.

Of nodes it takes from the journal which replies they give and which spans they release. Token servers it makes by their rules; what they
send is there to be compared with the journal.
"""
from server_model import GREATEST, Message, Server, changed, lowered, name, numbers, raised

OPENING = ("set", "wait", "query")


def span_of(start, length):
    """The bytes of a segment."""
    start, length = int(start), int(length)
    if length == 0:
        return start, GREATEST
    return (start, start + length - 1) if length > 0 else (start + length, start - 1)


def place_of(owner):
    """The place of an owner `pPID@N.I` or `dNUMBER@N.I` among others."""
    number, host = owner[1:].split("@")
    return numbers(host), owner[0] == "d", int(number)


class Node:
    """A node: its greatest failed incarnation, and while it is alive its processes, calls, locks and tokens."""

    def __init__(self):
        self.dead, self.live = 0, None
        self.begin(1)

    def begin(self, incarnation):
        self.live = incarnation
        self.processes = {}  # by PID, of each descriptor its description and its file
        self.calls = {}  # by name, of each call its PID, its words, and what it is about
        self.opened = {}  # the same of those without a reply
        self.locks = {}  # by file and owner
        self.tokens, self.last = {}, {}  # by file; the last is the number of the last command

    def fail(self):
        self.dead, self.live = self.live, None
        self.processes, self.calls, self.opened, self.locks, self.tokens = {}, {}, {}, {}, {}

    def call(self, call, pid, words):
        """The process makes a call."""
        if words[0] == "exit":
            self.opened = {other: made for other, made in self.opened.items() if made[0] != pid}
        self.calls[call] = (pid, words, self.about(call, pid, words))
        if words[0] in OPENING:
            self.opened[call] = self.calls[call]

    def about(self, call, pid, words):
        """The file, the owner, the mode and the bytes of a lock call, where its descriptor is one."""
        if words[0] not in (*OPENING, "unlock"):
            return None
        found = self.processes.get(pid, {}).get(int(words[1]))
        if not found:
            return None
        number = f"p{pid}" if words[2] == "proc" else f"d{found[0]}"
        mode = None if words[0] == "unlock" else words[3]
        return found[1], f"{number}@{call.rpartition('.')[0]}", mode, span_of(*words[-2:])

    def reply(self, call, reply):
        """A call gets its reply."""
        self.opened.pop(call, None)
        pid, words, about = self.calls[call]
        if reply[0] == "done" and words[0] in ("set", "wait", "unlock"):
            file, owner, mode, span = about
            self.locks[file, owner] = changed(self.locks.get((file, owner), []), span, lambda _: mode)
        elif reply[0] == "fd":
            self.processes[pid][int(reply[1])] = self.opening(pid, words)
        elif reply[0] == "done":
            self.change(pid, words, call.rpartition(".")[0])

    def opening(self, pid, words):
        """What a new descriptor refers to."""
        if words[0] == "dup":
            return self.processes[pid][int(words[1])]
        taken = self.descriptions()
        return next(number for number in range(1, 16385) if number not in taken), int(words[1])

    def descriptions(self):
        return {found[0] for descriptors in self.processes.values() for found in descriptors.values()}

    def change(self, pid, words, host):
        """A call about processes and descriptors is done."""
        if words[0] == "spawn":
            self.processes[pid] = {}
        elif words[0] == "fork":
            self.processes[int(words[1])] = dict(self.processes[pid])
        elif words[0] == "close":
            self.close(pid, int(words[1]), host)
        elif words[0] == "exit":
            for descriptor in list(self.processes[pid]):
                self.close(pid, descriptor, host)
            del self.processes[pid]

    def close(self, pid, descriptor, host):
        number, file = self.processes[pid].pop(descriptor)
        self.locks.pop((file, f"p{pid}@{host}"), None)
        if number not in self.descriptions():
            self.locks = {of: runs for of, runs in self.locks.items() if of[1] != f"d{number}@{host}"}

    def take(self, message, sends):
        """A message comes, at an entry that sends these."""
        if message.of[1] != self.live or message.word == "deny":
            return
        file = message.file
        epoch, last = self.last.get(file, (1, 0))
        if epoch < message.number[0]:
            epoch, last = message.number[0], 0
        self.last[file] = (epoch, last)
        if message.word == "hello" or message.number != (epoch, last + 1):
            return
        self.last[file] = message.number
        if message.word == "grant":
            self.tokens[file] = changed(self.tokens.get(file, []), message.spans(1)[0], raised(message.rest[0]))
        for sent in sends:
            if message.word == "revoke" and sent.word == "released":
                self.tokens[file] = changed(self.tokens.get(file, []), sent.spans(0)[0], lowered(message.rest[0]))


class Cluster:
    """A cluster of the shape that the first line of a journal tells."""

    def __init__(self, head):
        words = head.split(" ")
        self.version = int(words[1])
        self.nodes = {number: Node() for number in range(1, int(words[3]) + 1)}
        self.servers = {file: Server(file, 1, self.version, self.nodes) for file in range(1, int(words[5]) + 1)}
        self.failed = {file: 0 for file in self.servers}  # the greatest failed epoch
        self.works = set(self.servers)

    def take(self, words, reply, sends):
        """The entry of an event, by its words, with the words of the reply and the texts of the messages. What a server of the rules sends
        there, where one takes it."""
        sent = [Message(text, self.version) for text in sends]
        if words[0] == "call":
            self.node_of(words[1]).call(words[1], int(words[2]), words[3:])
        server = self.step(words, sent)
        if reply:
            self.node_of(reply[0]).reply(reply[0], reply[1:])
        return server.sends if server else None

    def node_of(self, text):
        return self.nodes[numbers(text)[0]]

    def step(self, words, sent):
        """What happens but for calls and replies. The server that takes it, if one does."""
        if words[0] == "deliver":
            message = Message(" ".join(words[1:]), self.version)
            if message.to_node:
                self.nodes[message.of[0]].take(message, sent)
                return None
            self.servers[message.file].take(message)
            return self.servers[message.file]
        if words[0] == "declare":
            self.node_of(words[1]).fail()
        elif words[0] == "restart":
            self.node_of(words[1]).begin(numbers(words[1])[1])
        elif words[0] in ("fail-server", "start-server"):
            return self.epoch(words[0], *numbers(words[1]))
        elif words[0] in ("resend", "learn"):
            server = self.servers[int(words[1])]
            server.resend() if words[0] == "resend" else server.learn(numbers(words[2]))
            return server
        return None

    def epoch(self, word, file, epoch):
        """A server fails in this epoch, or begins in it."""
        if word == "fail-server":
            self.failed[file] = epoch
            self.works.discard(file)
            return None
        self.works.add(file)
        self.servers[file] = Server(file, epoch, self.version, self.nodes)
        return self.servers[file]

    def lines(self, position, node=None, file=None):
        """The lines of what holds after the entry at this position, of that node and that file."""
        nodes = [number for number in self.nodes if node in (None, number)]
        files = [number for number in self.servers if file in (None, number)]
        lines = [f"state after entry {position}"]
        for number in nodes:
            lines += member(f"node {number} live {number}.", f"node {number} failed {number}.", self.nodes[number].live, self.nodes[number].dead)
        for number in files:
            epoch = self.servers[number].epoch if number in self.works else None
            lines += member(f"server {number} works in epoch ", f"server {number} failed in epoch ", epoch, self.failed[number])
        for number in nodes:
            for one in files:
                for lo, hi, level in self.nodes[number].tokens.get(one, []):
                    lines.append(f"token {number}.{self.nodes[number].live} file {one} {level} {lo} {hi}")
        lines += [f"lock file {one} {mode} {lo} {hi} {owner}" for one, lo, _, owner, hi, mode in self.locks(nodes, files)]
        for number in nodes:
            for call, (pid, words, (one, owner, mode, span)) in self.nodes[number].opened.items():
                if one in files:
                    lines.append(f"open {call} process {pid} file {one} {words[0]} {mode} {span[0]} {span[1]} {owner}")
        for number in files:
            if number in self.works:
                lines += [f"server {number} {line}" for line in server_lines(self.servers[number], nodes)]
        return lines

    def locks(self, nodes, files):
        """The locks in their order, of these nodes and files."""
        return sorted(
            (file, lo, place_of(owner), owner, hi, mode)
            for number in nodes
            for (file, owner), runs in self.nodes[number].locks.items()
            if file in files
            for lo, hi, mode in runs
        )


def member(alive, failed, live, dead):
    """The lines of a member that is live in this incarnation or epoch, and failed up to that one."""
    return [f"{alive}{live}"] * bool(live) + [f"{failed}{dead}"] * bool(dead)


def server_lines(server, nodes):
    """The lines of a server that works, of these nodes, behind its name."""
    lines = []
    for request in server.active:
        at = server.obstacle(request)
        if request.call[0] in nodes or at in nodes:
            lines.append(f"serves, waits for node {at} to answer: {request_text(server, request)}")
    for word, requests in (("queued", server.queue), ("waiting", server.waiting)):
        lines += [f"{word}: {request_text(server, request)}" for request in requests if request.call[0] in nodes]
    for node, row in sorted(server.rows.items()):
        if node in nodes:
            front = f"row {node}.{row.incarnation}"
            lines.append(f"{front} commands {row.count}")
            lines += [f"{front} token {level} {lo} {hi}" for lo, hi, level in row.token]
            lines += [f"{front} is to answer: {row.command}"] * bool(row.command)
    lines += [f"waits for the report of node {node}" for node in server.awaited() if node in nodes]
    return lines + [f"knows dead {node}.{dead}" for node, dead in sorted(server.dead.items()) if dead and node in nodes]


def request_text(server, request):
    """A request to the server as a message."""
    (lo, hi), (first, last) = request.required, request.desired
    return f"request {server.file} {name(request.call)} {request.blocking} {request.mode} {lo} {hi} {first} {last}"
