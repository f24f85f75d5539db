"""What the calls of a run come to that are open at its end, by the entries of its journal: docs/FORMATS.md, "Explored scripts", tells when."""
from node_model import Nodes

BLOCKED, UNDELIVERED = "open, blocked for good", "open, not delivered yet"


class Entry:
    """An entry: what happens, and the call that it answers, with the reply."""

    def __init__(self, event):
        self.words = event.split(" ")
        self.answered = self.reply = None


def entries_of(lines):
    """The entries of a journal, by its lines behind the first."""
    entries = []
    for line in lines:
        kind, _, rest = line.partition(" ")
        if kind == "entry":
            entries.append(Entry(rest.partition(" ")[2]))
        elif kind == "reply":
            entries[-1].answered, _, entries[-1].reply = rest.partition(" ")
    return entries


def left_of(journal, is_cut=False):
    """By the name of each open call of a live node, about a file whose server works: what it comes to. Where one is not delivered yet, or the schedule is cut
    short, those that are blocked are left out: the lock that blocks one may go once more is delivered, or called."""
    head, *lines = journal.splitlines()
    nodes, failed = Nodes(int(head.split(" ")[3])), set()
    for entry in entries_of(lines):
        nodes.take(entry)
        file = entry.words[1].partition(".")[0] if len(entry.words) > 1 else ""
        if entry.words[0] == "fail-server":
            failed.add(file)
        elif entry.words[0] == "start-server":
            failed.discard(file)
    served = {name: call for name, call in nodes.calls().items() if call.file not in failed}
    held = {name for name, call in served.items() if call.command == "wait" and nodes.blockers(call)}
    undelivered = {name: UNDELIVERED for name in served if name not in held}
    return undelivered or ({} if is_cut else {name: BLOCKED for name in held})
