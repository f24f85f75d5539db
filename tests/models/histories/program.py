"""Runs `judge`, and reads what it says of histories."""
import collections
import os
import re
import subprocess

SECONDS = 120
MISFIT = re.compile(r"fits nowhere: line (\d+): (.*)")


def run(program, *words, given=None):
    """The status, and what stood on standard output and standard error."""
    try:
        done = subprocess.run([program, *words], input=given, capture_output=True, timeout=SECONDS)
    except subprocess.TimeoutExpired:
        return None, "", f"no end in {SECONDS} seconds"
    return done.returncode, done.stdout.decode(errors="replace"), done.stderr.decode(errors="replace")


Misfit = collections.namedtuple("Misfit", "line call tables")
Table = collections.namedtuple("Table", "locks in_way open")


class Said:
    """What is said of one history: its verdict, and the rules that are allowed; by file the calls that fit nowhere, each with the tables that there may be before it, where a history of one file has
    them under None; the order of each file by the words that name lines; up to which lines files are explained; counts, also those of the locks of each file; and lines
    of no kind."""

    def __init__(self, lines):
        self.lines, self.verdict, self.allowed, self.stats = lines, None, [], None
        self.misfits, self.orders, self.explained, self.locks, self.others = {}, {}, {}, {}, []
        self.file = None
        for line in lines:
            if not self.take(line):
                self.others.append(line)

    def take(self, line):
        """Whether the line may stand there."""
        word, _blank, rest = line.partition(" ")
        if word == "history" and self.verdict is None:
            self.verdict, _but, rules = rest.partition(", but for ")
            self.allowed = rules.split(", ") if rules else []
        elif word == "file":
            self.file = rest
        elif word == "order":
            self.orders[rest.split(" ")[0]] = rest.split(" ")[1:]
        elif found := MISFIT.fullmatch(line):
            self.misfits.setdefault(self.file, []).append(Misfit(int(found[1]), found[2], []))
        elif found := re.fullmatch(r"explained up to line (\d+)", line):
            self.explained[self.file] = int(found[1])
        elif found := re.fullmatch(r"stats of (\S+) (locks .*)", line):
            self.locks[found[1]] = found[2]
        elif word == "stats":
            self.stats = rest
        elif self.misfits:
            return self.take_table(line, list(self.misfits.values())[-1][-1].tables)
        else:
            return False
        return True

    def take_table(self, line, tables):
        if re.fullmatch(r"possible tables before: \d+", line):
            return True
        if line == f"table {len(tables) + 1}":
            tables.append(Table([], [], []))
        elif found := re.fullmatch(r"  in the way: (.*)", line):
            tables[-1].in_way.append(found[1])
        elif found := re.fullmatch(r"  open: line (\d+)", line):
            tables[-1].open.append(int(found[1]))
        elif re.fullmatch(r"  (read|write) \d+ \d+ \S+", line):
            tables[-1].locks.append(line[2:])
        elif line != "  nothing in the way":
            return False
        return True


def judge(program, paths, *options):
    """The status, what is said of the history of each path, and what stood on standard error, or is said of no path."""
    status, out, err = run(program, "judge", *paths, *options)
    lines = {path: [] for path in paths}
    for line in out.splitlines():
        path, _colon, text = (paths[0], "", line) if len(paths) == 1 else line.partition(": ")
        if path in lines:
            lines[path].append(text)
        else:
            err += line + "\n"
    return status, {path: Said(of_path) for path, of_path in lines.items()}, err


class Cases:
    """Counts cases, and tells those that failed."""

    def __init__(self):
        self.passed, self.failed = 0, 0

    def judge(self, name, wrong):
        """Counts a case, which failed where something is wrong."""
        if wrong:
            self.failed += 1
            print(f"FAILED {name}: {wrong}")
        else:
            self.passed += 1

    def end(self):
        """Tells the counts: the status."""
        print(f"{self.passed} passed, {self.failed} failed")
        return 1 if self.failed else 0


def write(room, name, text):
    """Writes a text to a file in the folder: its path."""
    path = os.path.join(room, name)
    with open(path, "w", encoding="utf-8", newline="") as file:
        file.write(text)
    return path


def the_program(words, usage):
    """The program that is named by the only word behind the script's name, where it can be run; else the run ends with one failed."""
    if len(words) != 2 or not os.access(words[1], os.X_OK):
        print(f"usage: {usage}" if len(words) != 2 else f"{usage.split(' ')[0]}: there is no program {words[1]}")
        print("0 passed, 1 failed")
        raise SystemExit(1)
    return os.path.realpath(words[1])
