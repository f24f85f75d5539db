"""A reading of recordings by strace as histories of clients, by docs/FORMATS.md and fcntl(2): the lines of the history that `from-strace --history` prints."""
import re

LINE = re.compile(r"(?:(\d+)|\[pid +(\d+)\]) +(\d+)\.(\d+) (.*)")
RESUMED = re.compile(r"<\.\.\. \w+ resumed>(.*)")
CALL = re.compile(r"(\w+)\((.*)")
RETURNED = re.compile(r"(.*)\)\s+= (-?\d+|\?)(?:<[^>]*>)?(?: ([A-Z]\w+))?(?: \(.*\))?(?: <[\d.]+>)?")
MODES = {"F_RDLCK": "read", "F_WRLCK": "write"}
NANO = 10**9


def nanoseconds(whole, part):
    return int(whole) * NANO + int(part.ljust(9, "0"))


class Call:
    def __init__(self, line, pid, name, arguments):
        self.begin, self.pid, self.name, self.arguments = line, pid, name, arguments
        self.end = self.gave = self.error = None

    def return_at(self, line, rest):
        found = RETURNED.fullmatch(self.arguments + rest)
        self.end, (self.arguments, self.gave, self.error) = line, found.groups()


class Recording:
    """One recording: its calls, and the lines where processes end."""

    def __init__(self, text):
        self.at, self.calls, self.gone, self.digits = {}, [], {}, set()
        pending = {}
        for number, text_of_line in enumerate(text.splitlines(), 1):
            found = LINE.fullmatch(text_of_line)
            pid, rest = int(found[1] or found[2]), found[5]
            self.at[number] = nanoseconds(found[3], found[4])
            self.digits.add(len(found[4]))
            if rest.startswith("+++"):
                self.gone[number] = (pid, "killed" in rest)
            elif resumed := RESUMED.fullmatch(rest):
                pending.pop(pid).return_at(number, resumed[1])
            elif call := CALL.fullmatch(rest):
                self.calls.append(Call(number, pid, call[1], call[2]))
                if rest.endswith(" <unfinished ...>"):
                    self.calls[-1].arguments = call[2].removesuffix(" <unfinished ...>")
                    pending[pid] = self.calls[-1]
                else:
                    self.calls[-1].return_at(number, "")

    def stretch(self, call, step):
        """When a call was made: from the time in front of it on, until the line where it was resumed, or until before the next line."""
        begin = self.at[call.begin]
        if call.end is None or call.gave == "?" and not call.error:
            return begin, None
        if call.end != call.begin:
            return begin, self.at[call.end]
        if call.end + 1 not in self.at:
            return begin, None
        return begin, max(begin, self.at[call.end + 1] - step)


class Clients:
    """What the clients of a recording do, in the order in which it counts for their descriptors."""

    def __init__(self, recording, machine, step):
        self.recording, self.machine, self.step = recording, machine, step
        self.group, self.last, self.leaves, self.lives, self.lines = {}, {}, {}, {}, []
        self.tables, self.open = {}, {}
        told = {"open", "openat", "openat2", "creat", "dup", "dup2", "dup3"}
        steps = [(call.end if call.name in told or "F_DUPFD" in call.arguments else call.begin, call) for call in recording.calls]
        for _line, what in sorted([(line, call) for line, call in steps if line] + list(recording.gone.items()), key=lambda it: it[0]):
            if isinstance(what, Call):
                self.take(what)
            else:
                self.end(*what, _line)

    def word(self, name):
        return name + (f"@{self.machine}" if self.machine else "")

    def owner(self, pid):
        group = self.group.get(pid, pid)
        life = self.lives.get(group, 1)
        return self.word(f"p{group}" + (f".{life}" if life > 1 else ""))

    def say(self, stretch, owner, file, words, reply):
        self.lines.append((*stretch, owner, file, words, reply if stretch[1] is not None else None))

    def release(self, description, stretch):
        description["begins"].append(stretch[0])
        description["ends"].append(stretch[1])
        description["count"] -= 1
        if description["count"] == 0:
            ends = description["ends"]
            self.say((max(description["begins"]), None if None in ends else max(ends)), self.word(f"d{description['line']}"), description["file"], "close", "done")

    def close(self, pid, fd, stretch):
        description, _closes = self.tables[self.group[pid]].pop(fd, (None, None))
        if description:
            self.say(stretch, self.owner(pid), description["file"], "close", "done")
            self.release(description, stretch)

    def take(self, call):
        pid = call.pid
        if pid not in self.group:
            self.group[pid], self.tables[pid], self.last[pid] = pid, {}, call.begin
        group, stretch, table = self.group[pid], self.recording.stretch(call, self.step), self.tables[self.group[pid]]
        given = int(call.gave) if call.gave not in (None, "?") else -1
        first = int(re.match(r"(\d*)", call.arguments)[1] or -1)
        if call.name in ("open", "openat", "openat2", "creat") and given >= 0:
            path = re.search(r'"([^"]*)"', call.arguments)[1]
            table[given] = ({"file": path, "line": call.end, "count": 1, "begins": [], "ends": []}, "O_CLOEXEC" in call.arguments)
        elif call.name in ("dup2", "dup3", "dup") and given >= 0 or "F_DUPFD" in call.arguments and given >= 0:
            self.close(pid, given, stretch)
            if first in table:
                table[first][0]["count"] += 1
                table[given] = (table[first][0], "_CLOEXEC" in call.arguments)
        elif call.name == "close":
            self.close(pid, first, stretch)
        elif call.name == "execve" and given == 0:
            for fd in [fd for fd, (_description, closes) in table.items() if closes]:
                self.close(pid, fd, stretch)
        elif call.name in ("clone", "clone3", "fork", "vfork") and given > 0:
            if "CLONE_FILES" in call.arguments:
                self.group[given] = group
            else:
                self.lives[given] = self.lives.get(given, 0) + 1
                self.group[given], self.tables[given], self.last[given] = given, dict(table), call.begin
                for description, _closes in table.values():
                    description["count"] += 1
        elif call.name == "exit_group":
            self.leaves.setdefault(group, call.begin)
        elif call.name == "fcntl" and "F_SETFD" in call.arguments and given == 0:
            table[first] = (table[first][0], "FD_CLOEXEC" in call.arguments)
        elif call.name == "fcntl" and first in table and (found := re.search(r", (F_(?:OFD_)?)(SETLKW?|GETLK)\b", call.arguments)):
            description = table[first][0]
            self.ask(call, found[2], self.word(f"d{description['line']}") if "OFD" in found[1] else self.owner(pid), description["file"], stretch)
        if call.end and not (call.gave == "?" and not call.error):
            self.last[group] = max(self.last[group], call.begin)

    def ask(self, call, command, owner, file, stretch):
        kind, start, length = re.search(r"l_type=(\w+), l_whence=SEEK_SET, l_start=(-?\d+), l_len=(-?\d+)", call.arguments).groups()
        span = f"{start} {length}"
        if int(start) + min(0, int(length)) < 0:
            return
        reply = "done" if call.gave == "0" else None
        if command == "GETLK":
            words, reply = f"query {MODES.get(kind, 'read')} {span}", "free"
            if kind in MODES:
                holder = int(re.search(r"l_pid=(-?\d+)", call.arguments)[1])
                words = f"query write {span}"
                reply = f"blocked {MODES[kind]} {span} " + (self.owner(holder) if holder in self.group and not self.machine else "?")
        elif kind == "F_UNLCK":
            words = f"unlock {span}"
        else:
            words = f"{'wait' if command == 'SETLKW' else 'set'} {MODES[kind]} {span}"
            if call.error in ("EAGAIN", "EACCES") and command == "SETLK":
                reply = "again"
            elif call.error == "EINTR" or (call.error or "").startswith("ERESTART"):
                reply = "interrupted"
        self.say(stretch, owner, file, words, reply or call.error and f"refused {call.error}")

    def end(self, pid, is_killed, line):
        group = self.group.pop(pid, None)
        if group is None or group in self.group.values():
            if group is not None:
                self.group[pid] = group if group == pid else None
            return
        begin = self.leaves.get(group, self.last[group]) if not is_killed else self.last[group]
        stretch = (self.recording.at[begin], self.recording.at[line])
        for description, _closes in self.tables[group].values():
            self.release(description, stretch)
        self.group[pid] = group
        self.say(stretch, self.owner(pid), None, "exit", "done")
        self.leaves.pop(group, None)


def line_of(step, begin, end, owner, file, words, reply):
    operation, _blank, rest = words.partition(" ")
    if file is not None:
        coded = "".join(f"%{ord(c):02x}" if c in " %" or c < " " or c == "\x7f" else c for c in file)
        operation += f" {coded}" + (f" {rest}" if rest else "")
    end = "-" if end is None else end // step
    return f"call {begin // step} {end} {owner} {operation}" + (f" -> {reply}" if reply else "")


def read(parts):
    """The lines of the history of recordings, each with the name of its machine or None, sorted behind the front."""
    recordings = [(machine, Recording(text)) for machine, text in parts]
    step = 1 if any(digits > 6 for _machine, one in recordings for digits in one.digits) else 1000
    front = [f"history 1 clock {'us' if step > 1 else 'ns'}"]
    front += [f"machine {machine} skew {-(-(10 ** (9 - min(one.digits)) - 1) // step)}" for machine, one in recordings if machine]
    calls = [line for machine, one in recordings for line in Clients(one, machine, step).lines]
    lock_calls = [line for line in calls if line[4] not in ("close", "exit")]
    owners, files = {line[2] for line in lock_calls}, {line[3] for line in lock_calls}
    return front + sorted(line_of(step, *line) for line in calls if line in lock_calls or line[2] in owners and (line[3] is None or line[3] in files))
