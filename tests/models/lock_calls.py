"""The lock calls of a journal, read by docs/FORMATS.md alone: the file of each, its answer, and which are open at the end."""
import collections

LOCK_CALLS = ("set", "wait", "unlock", "query")
# A lock call: the position of its entry and of its reply, its file, the words of what it asks and those of the reply. Of one that is open end and reply are None.
LockCall = collections.namedtuple("LockCall", "begin end file asked reply")


def entries_of(text):
    """The words of each event, of its reply the call's name and the words behind it, and those of the messages."""
    entries = []
    for line in text.splitlines()[1:]:
        words = line.split(" ")
        if words[0] == "entry":
            entries.append({"event": words[2:], "reply": None, "sends": []})
        elif words[0] == "reply":
            entries[-1]["reply"] = (words[1], words[2:])
        elif words[0] == "send":
            entries[-1]["sends"].append(words[1:])
    return entries


def replies_of(entries):
    """The position and the words of each call's reply, by its name."""
    return {entry["reply"][0]: (at, entry["reply"][1]) for at, entry in enumerate(entries, 1) if entry["reply"]}


class Files:
    """Which descriptor of which process is of which file."""

    def __init__(self):
        self.of = {}

    def process(self, name, pid):
        node, incarnation, _ = name.split(".")
        return node, incarnation, pid

    def file(self, who, descriptor):
        """The file of the descriptor, or None where the process has none such."""
        return self.of.get(who, {}).get(descriptor)

    def do(self, who, words, reply):
        """Takes note of a call that is no lock call, and was answered so."""
        verb = words[0]
        if verb == "spawn" and reply == ["done"]:
            self.of[who] = {}
        elif verb == "fork" and reply == ["done"]:
            self.of[who[0], who[1], words[1]] = dict(self.of[who])
        elif verb == "open" and reply[0] == "fd":
            self.of[who][reply[1]] = words[1]
        elif verb == "dup" and reply[0] == "fd":
            self.of[who][reply[1]] = self.of[who][words[1]]
        elif verb == "close" and reply == ["done"]:
            del self.of[who][words[1]]
        elif verb == "exit" and reply == ["done"]:
            del self.of[who]

    def gone(self, node):
        """The node failed."""
        self.of = {who: files for who, files in self.of.items() if who[0] != node}


def lock_calls(entries):
    """Yields each lock call that is answered, and then those that are open. Its file is that of its descriptor where it is made. Of those without a
    reply an exit or a failure ends some, which are left out."""
    replies = replies_of(entries)
    files = Files()
    waiting = {}
    for at, entry in enumerate(entries, 1):
        words = entry["event"]
        if words[0] == "declare":
            node = words[1].partition(".")[0]
            files.gone(node)
            waiting = {who: call for who, call in waiting.items() if who[0] != node}
        if words[0] != "call":
            continue
        name, pid, asked = words[1], words[2], words[3:]
        who = files.process(name, pid)
        end, reply = replies.get(name, (None, None))
        if asked[0] not in LOCK_CALLS:
            if asked[0] == "exit":
                waiting.pop(who, None)
            if reply:
                files.do(who, asked, reply)
        elif reply is not None:
            yield LockCall(at, end, files.file(who, asked[1]), asked, reply)
        elif asked[0] in ("set", "wait"):
            waiting[who] = LockCall(at, None, files.file(who, asked[1]), asked, None)
    yield from waiting.values()
