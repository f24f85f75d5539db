#!/usr/bin/env python3
"""A cluster of processes on one machine, for tests: a `lockreplay seat` for each node and each token server, one `lockreplay members`, and this driver.
It carries messages, with losses, delays and repeats; ticks; takes a seat whose process ended for failed, declares it and begins it again; and has
processes make lock calls over a Unix socket (README.md). It is not proved: what the seats log is merged and audited.

FOLDER has to be new. It gets `socket`, `members`, KIND-NUMBER.LIFE.log of each process, and KIND-NUMBER.pid of those that run. A line on standard
output tells each declaration and start, and at the end, which SIGTERM or SIGINT brings, what was counted."""
import argparse
import asyncio
import collections
import itertools
import os
import random
import signal
import socket
import struct
import sys
import time

LONGEST = 1 << 27
LONGEST_PATH = 107  # bytes of a socket's path
CHILD_COMES = 5  # seconds that a forked child has for its first line
FAILS = {"node": "declare", "server": "fail-server"}
BEGINS = {"node": "restart", "server": "start-server"}


class Talk:
    """A command of the program that answers each line by a block."""

    process = None

    async def start(self, *words):
        """Starts it."""
        pipe = asyncio.subprocess.PIPE
        self.process = await asyncio.create_subprocess_exec(*words, stdin=pipe, stdout=pipe, limit=LONGEST, start_new_session=True)

    async def ask(self, line):
        """The lines of the block that answers a line; none where the process ended. What it wrote before is read all the same."""
        try:
            self.process.stdin.write(line.encode() + b"\n")
            await self.process.stdin.drain()
        except ConnectionError:
            pass
        return await self.block()

    async def block(self):
        """The lines of the next block, but for its end and its clock; none where it is not whole: then it is nobody's."""
        lines = []
        while True:
            line = await self.process.stdout.readline()
            if not line.endswith(b"\n"):
                return None
            text = line[:-1].decode()
            if text.startswith("end "):
                return lines
            if text.startswith("refused "):
                return [text]
            if not text.startswith("at "):
                lines.append(text)

    async def end(self):
        """Lets it end by itself, or ends it."""
        if not self.process:
            return
        self.process.stdin.close()
        try:
            await asyncio.wait_for(self.process.wait(), 5)
        except asyncio.TimeoutError:
            self.process.kill()
            await self.process.wait()


def has_begun(log):
    """Whether the seat of the log wrote its first block: one that was killed before that did nothing."""
    with open(log, encoding="utf-8", errors="replace") as file:
        return any(line.startswith("end ") and line.endswith("\n") for line in file)


class Seat(Talk):
    """The process of one actor. It is told the lines of its inbox, one after the other."""

    def __init__(self, cluster, kind, number):
        self.cluster, self.kind, self.number, self.log = cluster, kind, number, None
        self.inbox = asyncio.Queue()
        self.calls, self.tags = {}, itertools.count(1)  # the replies that callers wait for, by their tags
        self.works = self.ticks = False
        self.processes = {}  # the processes of a node: by PID how the one that calls is killed, if it has to be
        self.forked = set()  # children that have not come yet

    def call(self, pid, operation):
        """The reply to a call, once it comes: `gone` where the process of the seat ends before."""
        reply = asyncio.get_running_loop().create_future()
        if not self.works:
            reply.set_result("gone")
        else:
            tag = next(self.tags)
            self.calls[tag] = reply
            self.inbox.put_nowait(f"tagged {tag} {self.number} {pid} {operation}")
            self.cluster.count("calls")
        return reply

    def tick(self):
        """A tick goes by, if the last one was dealt with."""
        if self.works and not self.ticks:
            self.ticks = True
            self.inbox.put_nowait("tick")

    async def run(self):
        """Tells it line by line, until its process has ended and its pipe is read to the end."""
        while (line := await self.inbox.get()) is not None:
            block = await self.ask(line)
            if block is None:
                break
            self.take(line, block)
        self.works = False
        for tag in list(self.calls):
            self.answer(tag, "gone")

    def take(self, line, block):
        """What a block says is done."""
        reply = None
        self.ticks &= line != "tick"
        for text in block:
            word, _blank, rest = text.partition(" ")
            if word == "entry":
                self.cluster.count("entries")
            elif word == "reply":
                reply = rest.split(" ", 1)[1]
            elif word == "tag":
                self.answer(int(rest), reply)
            elif word == "to":
                kind, number, message = rest.split(" ", 2)
                self.cluster.send((kind, int(number)), message)
            elif word == "refused":
                self.cluster.count(f"refused {line.split(' ')[0]} {rest.split(' ')[0]}")
                if line.startswith("tagged "):
                    self.answer(int(line.split(" ")[1]), text)

    def answer(self, tag, reply):
        future = self.calls.pop(tag, None)
        if future and not future.done():
            future.set_result(reply)
            self.cluster.count("gone" if reply == "gone" else "replies")

    async def kill_processes(self):
        """Kills the processes of a node, and waits until they have ended: none of them writes by a lock that is not its own any longer."""
        for kill in self.processes.values():
            kill()
        while any(kill is not spare for kill in self.processes.values()):
            await asyncio.sleep(0.001)


def spare():
    """Kills nothing."""


class Caller:
    """A process that makes calls over the socket, as a process of a node."""

    def __init__(self, cluster, reader, writer):
        self.cluster, self.reader, self.writer = cluster, reader, writer
        self.ahead = None  # the line that it writes next, while a call of it is open
        self.seat = self.pid = None

    async def serve(self):
        """Answers its lines until it ends, or its node does."""
        if await self.join(await self.line()):
            self.say(str(self.pid))
            while (line := await self.line()) and (reply := await self.reply(line)):
                self.say(reply)
                if reply == "gone":
                    break
            await self.seat.call(self.pid, "exit")
            while self.seat.processes[self.pid] is not spare and await self.line():
                pass
            del self.seat.processes[self.pid]
        self.writer.close()

    async def join(self, line):
        """Whether it is a process of its node from here on; a node that failed is waited for."""
        word, *numbers = line.split(" ")
        numbers = [int(number) for number in numbers if number.isdecimal()]
        if [word, len(numbers)] not in (["process", 1], ["visitor", 1], ["child", 2]) or not 1 <= numbers[0] <= self.cluster.options.nodes:
            return self.say("refused: expected 'process NODE', 'visitor NODE' or 'child NODE PID'")
        while not (seat := self.cluster.seats.get(("node", numbers[0]))):
            await asyncio.sleep(0.005)
        self.seat, self.pid = seat, numbers[1] if word == "child" else free_pid(seat)
        if word == "child" and self.pid not in seat.forked:
            return self.say("gone")
        seat.forked.discard(self.pid)
        seat.processes[self.pid] = spare if word == "visitor" else self.kill
        if word != "child" and await seat.call(self.pid, "spawn") != "done":
            del seat.processes[self.pid]
            return self.say("gone")
        return True

    def kill(self):
        """Kills the process at the other end."""
        try:
            credentials = self.writer.get_extra_info("socket").getsockopt(socket.SOL_SOCKET, socket.SO_PEERCRED, 12)
            pid = struct.unpack("3i", credentials)[0]
            if pid > 0:
                os.kill(pid, signal.SIGKILL)
        except OSError:
            pass  # it has ended

    def say(self, text):
        self.writer.write(text.encode() + b"\n")

    async def line(self):
        """The next line, empty at the end. An interrupt that comes too late is none."""
        text = "interrupt"
        while text == "interrupt":
            ahead, self.ahead = self.ahead or asyncio.ensure_future(self.reader.readline()), None
            try:
                text = (await ahead).decode(errors="replace").removesuffix("\n")
            except (ConnectionError, ValueError):
                return ""
        return text

    async def reply(self, line):
        """The reply to a line; none where the process ended before it came."""
        word, *rest = line.split(" ")
        if word == "open" and len(rest) == 2:
            file = self.cluster.file_of(rest[0])
            return await self.result(f"open {file} {rest[1]}") if file else "no-file"
        if line != "fork":
            return await self.result(line)
        child = free_pid(self.seat)
        self.seat.forked.add(child)
        asyncio.get_running_loop().call_later(CHILD_COMES, self.abandon, child)
        reply = await self.result(f"fork {child}")
        return str(child) if reply == "done" else reply

    def abandon(self, child):
        """A child that did not come has exited."""
        if child in self.seat.forked:
            self.seat.forked.discard(child)
            self.seat.call(child, "exit")

    async def result(self, operation):
        """The reply to a call, which the process may interrupt meanwhile."""
        reply = self.seat.call(self.pid, operation)
        while not reply.done():
            self.ahead = self.ahead or asyncio.ensure_future(self.reader.readline())
            await asyncio.wait({reply, self.ahead}, return_when=asyncio.FIRST_COMPLETED)
            if self.ahead.done() and not reply.done():
                if self.ahead.exception() or self.ahead.result() != b"interrupt\n":
                    return None
                self.ahead = None
                self.seat.inbox.put_nowait(f"interrupt {self.seat.number} {self.pid}")
        return reply.result()


def free_pid(seat):
    """The least PID that no process of the node has."""
    return next(pid for pid in itertools.count(1) if pid not in seat.processes and pid not in seat.forked)


class Cluster:
    """The seats that work, by kind and number, and what is under way between them."""

    def __init__(self, options):
        self.options, self.random = options, random.Random(options.seed)
        self.counts, self.lives, self.files = collections.Counter(), collections.Counter(), {}
        self.seats, self.all, self.members = {}, [], Talk()
        self.order = asyncio.Lock()  # of declarations and starts: all seats are told of them in one
        self.tasks, self.begun = set(), time.monotonic()

    def count(self, name):
        self.counts[name] += 1

    def spawn(self, job):
        task = asyncio.ensure_future(job)
        self.tasks.add(task)
        task.add_done_callback(self.tasks.discard)

    def file_of(self, name):
        """The number of a file of the cluster, by the name that callers have for it; none where all numbers are taken."""
        if name not in self.files and len(self.files) == self.options.files:
            return None
        return self.files.setdefault(name, len(self.files) + 1)

    def send(self, actor, message):
        """Puts a message under way."""
        if self.random.random() < self.options.loss:
            return self.count("lost")
        copies = 1 + (self.random.random() < self.options.repeat)
        self.counts["repeated"] += copies - 1
        for _copy in range(copies):
            slowness = 20 if self.random.random() < 0.1 else 1
            asyncio.get_running_loop().call_later(self.random.random() * self.options.delay * slowness, self.arrive, actor, message)

    def arrive(self, actor, message):
        """A message comes to the process that its actor has now, if it has one."""
        if seat := self.seats.get(actor):
            seat.inbox.put_nowait(f"deliver {message}")
        self.count("delivered" if seat else "for nobody")

    async def change(self, line):
        """A declaration or a start: each seat that works is told of it."""
        async with self.order:
            await self.ask_members(line)
            print(f"{time.monotonic() - self.begun:.3f} s: {line}", flush=True)
            for seat in self.seats.values():
                seat.inbox.put_nowait(line)

    async def ask_members(self, line):
        block = await self.members.ask(line)
        if block is None or block[:1] and block[0].startswith("refused "):
            sys.exit(f"driver: members, at '{line}': {block}")
        return block

    async def begin(self, kind, number, again):
        """Starts a process of an actor. One that begins later is told first of all that was before, of which it leaves the beginnings of its actor to the
        processes before it; what is declared meanwhile comes behind that."""
        seat = Seat(self, kind, number)
        self.all.append(seat)
        self.lives[kind, number] += 1
        name = f"{self.options.folder}/{kind}-{number}"
        seat.log = f"{name}.{self.lives[kind, number]}.log"
        words = [*self.shape(), "--policy", self.options.policy, "--log", seat.log, *self.clock()]
        if again:
            words += ["--again", "--past", str(self.lives[kind, number] - 2)]
        await seat.start(self.options.program, "seat", kind, str(number), *words)
        if await seat.block() is None:
            sys.exit(f"driver: the seat of {kind} {number} ended before it began")
        with open(f"{name}.pid", "w", encoding="ascii") as file:
            file.write(f"{seat.process.pid}\n")
        async with self.order:
            for line in await self.ask_members("list") if again else []:
                seat.inbox.put_nowait(line)
            self.seats[kind, number] = seat
            seat.works = True
        self.spawn(self.attend(seat))

    def shape(self):
        return ["--nodes", str(self.options.nodes), "--files", str(self.options.files)]

    def clock(self):
        return [] if self.options.no_clock else ["--clock"]

    async def attend(self, seat):
        """Runs a seat. Once its process has ended, nothing of it is under way but what it had written: it is declared failed, and begins again."""
        await seat.run()
        if self.seats.get((seat.kind, seat.number)) is seat:
            del self.seats[seat.kind, seat.number]
            await seat.kill_processes()
            await self.begin_again(seat.kind, seat.number)

    async def begin_again(self, kind, number):
        await self.change(f"{FAILS[kind]} {number}")
        await asyncio.sleep(self.random.random() * self.options.pause)
        await self.change(f"{BEGINS[kind]} {number}")
        await self.begin(kind, number, True)

    async def kill(self, kind, every):
        """Kills the process of some actor, now and then. Unfenced, a node is only declared failed: its process goes on, and so do those that call it."""
        due = every
        while True:
            await asyncio.sleep(self.options.tick)
            seats = [seat for seat in self.seats.values() if seat.kind == kind]
            if self.counts["calls"] < due or not seats:
                continue
            due = self.counts["calls"] + every * (0.5 + self.random.random())
            seat = self.random.choice(seats)
            self.count(f"killed {kind}s")
            if self.options.unfenced and kind == "node":
                del self.seats[kind, seat.number]
                self.spawn(self.begin_again(kind, seat.number))
            elif seat.process.returncode is None:
                seat.process.kill()

    async def tick(self):
        while True:
            await asyncio.sleep(self.options.tick)
            for seat in self.all:
                seat.tick()

    async def run(self):
        """Runs the cluster until the driver is told to end, and says what was counted."""
        path, stopped = f"{self.options.folder}/socket", asyncio.Event()
        if len(os.fsencode(path)) > LONGEST_PATH:
            sys.exit(f"driver: the path of the socket has more than {LONGEST_PATH} bytes: {path}")
        for number in (signal.SIGTERM, signal.SIGINT):
            asyncio.get_running_loop().add_signal_handler(number, stopped.set)
        os.mkdir(self.options.folder)
        await self.members.start(self.options.program, "members", *self.shape(), "--state", f"{self.options.folder}/members", *self.clock())
        for kind, greatest in (("node", self.options.nodes), ("server", self.options.files)):
            for number in range(1, greatest + 1):
                await self.begin(kind, number, False)
        for kind, every in (("node", self.options.kill_node), ("server", self.options.kill_server)):
            if every > 0:
                self.spawn(self.kill(kind, every))
        self.spawn(self.tick())
        await asyncio.start_unix_server(lambda *ends: self.spawn(Caller(self, *ends).serve()), path)
        await stopped.wait()
        for task in list(self.tasks):
            task.cancel()
        await asyncio.gather(*(talk.end() for talk in [*self.all, self.members]))
        for seat in self.all:
            if os.path.exists(seat.log) and not has_begun(seat.log):
                os.remove(seat.log)
        for name, number in sorted(self.counts.items()):
            print(f"{name}: {number}")


def read_options():
    parser = argparse.ArgumentParser(description=__doc__, formatter_class=argparse.RawDescriptionHelpFormatter)
    parser.add_argument("program", help="lockreplay")
    parser.add_argument("folder")
    for name, default, text in (
        ("nodes", 3, "how many"), ("files", 1, "how many"), ("policy", "wide", "wide or exact"), ("seed", 1, "of what is random here"),
        ("loss", 0.02, "the share of messages"), ("repeat", 0.02, "the share of messages"), ("delay", 0.002, "of most messages, in seconds at most; 20 times as long of a tenth"),
        ("tick", 0.005, "seconds"), ("pause", 0.3, "seconds at most before what failed begins again"),
        ("kill-node", 0, "calls between kills of nodes, about; 0: none"), ("kill-server", 0, "calls between kills of servers, about; 0: none"),
    ):
        parser.add_argument(f"--{name}", type=type(default), default=default, help=f"{text} ({default})")
    parser.add_argument("--no-clock", action="store_true", help="logs without times")
    parser.add_argument("--unfenced", action="store_true", help="nodes are not killed: they go on after they were declared failed, which breaks a premise")
    return parser.parse_args()


if __name__ == "__main__":
    asyncio.run(Cluster(read_options()).run())
