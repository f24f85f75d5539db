"""Every schedule of a small script without loss, gone through by running each as a script of its own.

Two schedules are held equal where each node and each token server met the same in the same order, and the same messages are under way, sent in the
same order: then each actor is in the same state. What comes next is found by docs/FORMATS.md: in a phase, the next call of each process whose call before has its reply,
and each message that was sent and did not come. Where there is none of these the phase ends.
"""
import os
import re
import subprocess

from left_open import left_of

TO_NODE = {"grant": 4, "revoke": 4, "deny": 2, "hello": 4}


class Ran:
    """What a schedule came to: the messages in the order of sending, what each actor met, and what each call of a process came to."""

    def __init__(self, listing, journal, lines):
        self.sent, self.met, names, replies = [], {}, {}, left_of(journal)
        for line in journal.splitlines():
            words = line.split(" ")
            if words[0] == "send":
                self.sent.append(line.removeprefix("send "))
            elif words[0] == "reply":
                replies[words[1]] = " ".join(words[2:])
            elif words[0] == "entry" and words[2] == "call":
                node, pid = words[3].split(".")[0], words[4]
                names.setdefault((node, pid), []).append(words[3])
                self.met.setdefault(f"node {node}", []).append(" ".join(words[4:]))
            elif words[0] == "entry" and words[2] == "deliver":
                at = TO_NODE.get(words[3])
                to = f"node {words[3 + at].split('.')[0]}" if at else f"server {words[4]}"
                self.met.setdefault(to, []).append(" ".join(words[3:]))
        refused = dict(re.findall(r"^line (\d+) code (\d+)$", listing.partition("replies\n")[0], re.MULTILINE))
        self.answers = {}
        for number, line in enumerate(lines, 1):
            words = line.split(" ")
            if words[0] == "call":
                process = (words[1], words[2])
                answer = f"refused {refused[str(number)]}" if str(number) in refused else replies.get(names[process].pop(0), "open")
                self.answers.setdefault(process, []).append(answer)


def ran(program, room, lines):
    """What the schedule of these lines comes to."""
    lock, journal = os.path.join(room, "one.lock"), os.path.join(room, "one.journal")
    with open(lock, "w") as file:
        file.write("".join(line + "\n" for line in lines))
    listing = subprocess.run([program, "run", lock, "--journal", journal], capture_output=True, text=True, check=True, timeout=60).stdout
    with open(journal) as file:
        return Ran(listing, file.read(), lines)


def phases_of(script):
    """The calls of each phase of a script, each with its process, in order; a line that is none of these ends a phase."""
    phases = [[]]
    for line in script:
        words = line.split(" ")
        if words[0] == "call":
            phases[-1].append(((words[1], words[2]), line))
        elif words[0] == "settle":
            phases.append([])
    return phases


def next_lines(phases, phase, lines, came):
    """What may come next."""
    found, seen = [], set()
    for process, line in (call for calls in phases[: phase + 1] for call in calls):
        made = came.answers.get(process, [])
        due = [call for calls in phases[: phase + 1] for its, call in calls if its == process]
        if process not in seen and len(made) < len(due) and not any(answer.startswith("open") for answer in made[-1:]):
            found.append(due[len(made)])
        seen.add(process)
    return found + [f"deliver {number}" for number in under_way(lines, came)]


def under_way(lines, came):
    """The numbers of the messages that are under way behind these lines, in the order of sending."""
    there = {int(line.split(" ")[1]) for line in lines if line.startswith("deliver ")}
    return [number for number in range(1, len(came.sent) + 1) if number not in there]


def outcomes_of(program, room, script, most):
    """What the calls of a script come to in its schedules, each with the fewest lines of one, and how many situations there are; None where there are more than `most`."""
    script = [line for line in script if line and line[0] != "#"]
    phases, outcomes, seen, todo = phases_of(script[1:]), {}, set(), [(0, script[:1])]
    for phase, lines in todo:
        came = ran(program, room, lines)
        met = sorted((actor, tuple(its)) for actor, its in came.met.items())
        answers = sorted((process, tuple(its)) for process, its in came.answers.items())
        key = (phase, tuple(met), tuple(answers), tuple(came.sent[number - 1] for number in under_way(lines, came)))
        if key in seen:
            continue
        seen.add(key)
        if len(seen) > most:
            return None
        more = next_lines(phases, phase, lines, came)
        todo += [(phase, [*lines, line]) for line in more]
        if not more and phase + 1 < len(phases):
            todo.append((phase + 1, lines))
        elif not more:
            left = {process: iter(its) for process, its in came.answers.items()}
            answers = tuple(next(left.get(process, iter(())), "not made") for calls in phases for process, _ in calls)
            outcomes.setdefault(answers, lines)
    return outcomes, len(seen)
