"""A lock manager at a distance, simulated: every client is always in a call, which takes as long as a message there and back, and which happens at some time
between. Its locks are right, so one table explains what the clients see."""
import heapq

BYTES, FILES = 8, 2
WORDS = ("set",) * 35 + ("wait",) * 10 + ("unlock",) * 30 + ("query",) * 20 + ("close",) * 5


class Manager:
    def __init__(self, random, clients, calls):
        self.random, self.left = random, calls
        self.locks = [{} for _ in range(FILES)]  # by owner, of each byte that it has, the mode
        self.names = [f"c{client}" for client in range(clients)]
        self.waiting, self.lines, self.events, self.count = [], [], [], 0
        for client in range(clients):
            self.plan(random.uniform(0, 100), self.begin, client)

    def plan(self, time, what, *words):
        self.count += 1
        heapq.heappush(self.events, (time, self.count, what, words))

    def run(self):
        while self.events:
            time, _count, what, words = heapq.heappop(self.events)
            what(time, *words)
        for call in self.waiting:
            if call["end"]:
                self.write(call, None, None)
        return "history 1 clock us\n" + "".join(line + "\n" for line in self.lines)

    def begin(self, time, client):
        """A client begins a call: of a hundred one gets no reply, and the client is killed some time later."""
        if self.left == 0:
            return
        self.left -= 1
        first, word = self.random.randrange(BYTES), self.random.choice(WORDS)
        last = min(BYTES - 1, first + self.random.randrange(3))
        if word == "unlock" and self.random.random() < 0.5:
            first, last = 0, BYTES - 1
        takes = self.random.expovariate(1 / 1000) + 50
        call = {"client": client, "word": word, "file": self.random.randrange(FILES), "mode": self.random.choice(("read", "write")), "span": (first, last)}
        call.update(begin=time, end=time + takes, name=self.names[client])
        if self.random.random() < 0.01:
            call["end"] = None
            self.write(call, None, None)
            self.plan(time + self.random.expovariate(1 / 20000), self.kill, client)
        if call["end"] or self.random.random() < 0.5:
            self.plan(time + takes * self.random.random(), self.happen, call)

    def kill(self, time, client):
        """The client loses its locks, and another one comes in its place. What it has not done by then it doesn't."""
        name = self.names[client]
        for file in range(FILES):
            self.locks[file].pop(name, None)
        self.waiting = [call for call in self.waiting if call["name"] != name]
        self.lines.append(f"call {int(time)} {int(time) + 1} {name} exit -> done")
        self.names[client] = name + "+"
        self.grant_waiting(time)
        self.plan(time + 10, self.begin, client)

    def blockers(self, call):
        """The locks in the way of a call: whose, at which byte, in which mode."""
        first, last = call["span"]
        for name, had in self.locks[call["file"]].items():
            for byte in range(first, last + 1):
                if name != call["name"] and byte in had and "write" in (had[byte], call["mode"]):
                    yield name, byte, had[byte]

    def happen(self, time, call):
        word, name, file = call["word"], call["name"], call["file"]
        if name != self.names[call["client"]]:
            return
        blockers = list(self.blockers(call)) if word in ("set", "wait", "query") else []
        had, (first, last), reply = self.locks[file].setdefault(name, {}), call["span"], "done"
        if word == "wait" and blockers:
            self.wait(time, call)
            return
        if word in ("set", "wait") and not blockers:
            had.update((byte, call["mode"]) for byte in range(first, last + 1))
        elif word == "set":
            reply = "again"
        elif word == "query":
            reply = self.told(file, *self.random.choice(blockers)) if blockers else "free"
        elif word == "unlock":
            self.locks[file][name] = {byte: mode for byte, mode in had.items() if not first <= byte <= last}
        else:
            del self.locks[file][name]
        self.answer(call, reply)
        if word != "query":
            self.grant_waiting(time)

    def told(self, file, name, byte, mode):
        had, first, last = self.locks[file][name], byte, byte
        while had.get(first - 1) == mode:
            first -= 1
        while had.get(last + 1) == mode:
            last += 1
        return f"blocked {mode} {first} {last - first + 1} {name}"

    def wait(self, time, call):
        """The call waits. Where most clients do, the one that has waited longest is interrupted."""
        self.waiting.append(call)
        if len(self.waiting) > 0.6 * len(self.names):
            first = self.waiting.pop(0)
            if first["end"]:
                first["end"] = time + 5
                self.answer(first, "interrupted")

    def grant_waiting(self, time):
        for call in list(self.waiting):
            if not any(self.blockers(call)):
                self.waiting.remove(call)
                first, last = call["span"]
                self.locks[call["file"]].setdefault(call["name"], {}).update((byte, call["mode"]) for byte in range(first, last + 1))
                call["end"] = call["end"] and time + self.random.expovariate(1 / 500) + 10
                self.answer(call, "done")

    def answer(self, call, reply):
        if call["end"]:
            self.plan(call["end"] + 1 + self.random.expovariate(1 / 100), self.begin, call["client"])
            self.write(call, call["end"], reply)

    def write(self, call, end, reply):
        first, last = call["span"]
        words = ["call", int(call["begin"]), int(end) if end else "-", call["name"], call["word"], call["file"]]
        words += [call["mode"]] if call["word"] in ("set", "wait", "query") else []
        words += [first, last - first + 1] if call["word"] != "close" else []
        words += ["->", reply] if end else []
        self.lines.append(" ".join(map(str, words)))


def make(random, clients, calls):
    """The text of the history of so many calls."""
    return Manager(random, clients, calls).run()
