"""A second model of the one table of locks of a file, for calls that lock no byte twice for one owner."""
import collections

from cluster_model import span_of

Lock = collections.namedtuple("Lock", "lo hi owner mode")


class Table:
    """The locks of the file, as a list, and the descriptors of each process by their descriptions."""

    def __init__(self):
        self.processes, self.locks = {}, []

    def call(self, node, pid, words):
        """A call is made. Its reply, or of a wait that is blocked the locks that block it."""
        verb, who = words[0], (node, pid)
        if verb in ("set", "wait"):
            return self.lock(who, verb, words)
        if verb == "spawn":
            self.processes[who] = {}
        elif verb == "fork":
            self.processes[node, words[1]] = dict(self.processes[who])
        elif verb == "open":
            taken = self.descriptions(node)
            descriptor = len(self.processes[who])
            self.processes[who][str(descriptor)] = next(number for number in range(1, 99) if number not in taken)
            return f"fd {descriptor}"
        elif verb == "unlock":
            span = span_of(*words[3:])
            self.locks = [lock for lock in self.locks if (lock.lo, lock.hi, lock.owner) != (*span, self.owner(who, words))]
        else:
            for descriptor in [words[1]] if verb == "close" else list(self.processes[who]):
                self.close(who, descriptor)
        return "done"

    def descriptions(self, node):
        return {number for who, its in self.processes.items() if who[0] == node for number in its.values()}

    def owner(self, who, words):
        return f"p{who[1]}@{who[0]}.1" if words[2] == "proc" else f"d{self.processes[who][words[1]]}@{who[0]}.1"

    def lock(self, who, verb, words):
        lo, hi = span_of(*words[4:])
        wanted = Lock(lo, hi, self.owner(who, words), words[3])
        blocking = [lock for lock in self.locks if blocks(lock, wanted)]
        if not blocking:
            self.locks.append(wanted)
            return "done"
        return f"again {text_of(blocking[0])}" if verb == "set" else sorted(blocking)

    def close(self, who, descriptor):
        """A process loses a descriptor: its locks go, and those of the description with the last descriptor of it."""
        number = self.processes[who].pop(descriptor)
        gone = {f"p{who[1]}@{who[0]}.1"}
        if number not in self.descriptions(who[0]):
            gone.add(f"d{number}@{who[0]}.1")
        self.locks = [lock for lock in self.locks if lock.owner not in gone]


def blocks(lock, wanted):
    return lock.owner != wanted.owner and lock.lo <= wanted.hi and wanted.lo <= lock.hi and "write" in (lock.mode, wanted.mode)


def text_of(lock):
    return f"{lock.mode} {lock.lo} {lock.hi} {lock.owner}"
