"""The nodes of a cluster by the entries of a journal: which calls are open, and which locks are held. A node's table changes where a call is answered."""
from spans import put, segment

LOCK_CALLS = ("set", "wait", "query")


class Call:
    """A lock call: its name, its process, what it asks for, and about which bytes of whose locks."""

    def __init__(self, name, pid, words, file, owner):
        self.name, self.pid, self.words = name, pid, words
        self.host = name.rpartition(".")[0]
        self.file, self.owner = file, owner
        self.command = words[0]
        self.mode = words[3] if self.command in LOCK_CALLS else None
        self.span = segment(int(words[-2]), int(words[-1]))

    def process(self):
        return f"p{self.pid}@{self.host}"


def order_of(owner):
    """The place of an owner among others."""
    name, _, host = owner.partition("@")
    node, _, incarnation = host.partition(".")
    return int(node), int(incarnation), "pd".index(name[0]), int(name[1:])


class Host:
    """A node in one incarnation: the descriptors of its processes, its descriptions, and its locks by file and owner."""

    def __init__(self, name):
        self.name = name
        self.processes = {}
        self.descriptions = {}
        self.locks = {}
        self.made = {}
        self.open = {}

    def owner_of(self, pid, fd, kind):
        return f"p{pid}@{self.name}" if kind == "proc" else f"d{self.processes[pid][fd]}@{self.name}"

    def call(self, name, pid, words):
        """A call is made: it is open until it is answered, or its process exits."""
        if words[0] == "exit":
            self.open.pop(pid, None)
        fds = self.processes.get(pid, {})
        about = None
        if words[0] in (*LOCK_CALLS, "unlock") and words[1] in fds:
            file = self.descriptions[fds[words[1]]]
            about = Call(name, pid, words, file, self.owner_of(pid, words[1], words[2]))
            if words[0] in LOCK_CALLS:
                self.open[pid] = about
        self.made[name] = pid, words, about

    def answer(self, name, reply):
        """A call is answered, which is when it changes what the node has."""
        pid, words, about = self.made.pop(name)
        if pid in self.open and self.open[pid].name == name:
            del self.open[pid]
        if reply[0] == "fd":
            self.opened(pid, words, reply[1])
        elif reply[0] == "done":
            self.done(pid, words, about)

    def opened(self, pid, words, fd):
        if words[0] == "dup":
            self.processes[pid][fd] = self.processes[pid][words[1]]
            return
        number = next(n for n in range(1, 2**15) if n not in self.descriptions)
        self.descriptions[number] = words[1]
        self.processes[pid][fd] = number

    def done(self, pid, words, about):
        if words[0] == "spawn":
            self.processes[pid] = {}
        elif words[0] == "fork":
            self.processes[words[1]] = dict(self.processes[pid])
        elif words[0] == "close":
            self.close(pid, words[1])
        elif words[0] == "exit":
            for fd in list(self.processes[pid]):
                self.close(pid, fd)
            del self.processes[pid]
        elif about:
            place = about.file, about.owner
            mode = None if words[0] == "unlock" else about.mode
            self.locks[place] = put(self.locks.get(place, []), *about.span, mode)

    def close(self, pid, fd):
        """The descriptor goes, with the process's locks on the file, and the description's if it was the last one."""
        number = self.processes[pid].pop(fd)
        file = self.descriptions[number]
        self.locks.pop((file, f"p{pid}@{self.name}"), None)
        if not any(number in fds.values() for fds in self.processes.values()):
            del self.descriptions[number]
            self.locks.pop((file, f"d{number}@{self.name}"), None)


class Nodes:
    """The live nodes, by their numbers, and the incarnation that each has, or begins in next."""

    def __init__(self, count):
        self.live = {str(node): Host(f"{node}.1") for node in range(1, count + 1)}
        self.incarnations = {str(node): 1 for node in range(1, count + 1)}

    def host(self, name):
        """The node in that incarnation, if it is alive."""
        node = self.live.get(name.partition(".")[0])
        return node if node and node.name == name else None

    def take(self, entry):
        """An entry happens."""
        words = entry.words
        if words[0] == "call":
            self.host(words[1].rpartition(".")[0]).call(words[1], words[2], words[3:])
        elif words[0] == "declare":
            node, _, incarnation = words[1].partition(".")
            del self.live[node]
            self.incarnations[node] = int(incarnation) + 1
        elif words[0] == "restart":
            self.live[words[1].partition(".")[0]] = Host(words[1])
        if entry.answered:
            self.host(entry.answered.rpartition(".")[0]).answer(entry.answered, entry.reply.split(" "))

    def calls(self):
        """The open calls, by their names."""
        return {call.name: call for host in self.live.values() for call in host.open.values()}

    def blockers(self, call):
        """The locks that block the call, as journals write them, in the order of the listing."""
        found = []
        for host in self.live.values():
            for (file, owner), runs in host.locks.items():
                if file != call.file or owner == call.owner:
                    continue
                for lo, hi, mode in runs:
                    if lo <= call.span[1] and call.span[0] <= hi and "write" in (mode, call.mode):
                        found.append((lo, order_of(owner), f"{mode} {lo} {hi} {owner}", owner))
        return [(text, owner) for _, _, text, owner in sorted(found)]
