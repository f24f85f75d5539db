#!/usr/bin/env python3
"""A process and its child make random lock calls in turn, on two files of a folder: a line for each call, and what it was answered. By the kernel and by
examples/cluster/lockshim.c these are the same lines. (Which of several locks F_GETLK finds is not told.)
usage: tests/programs/shimmed_calls.py FOLDER SEED"""
import errno
import fcntl
import os
import random
import struct
import sys

FLOCK = "hhqqi4x"
COMMANDS = {"set": fcntl.F_SETLK, "get": fcntl.F_GETLK, "set-of-description": 37, "get-of-description": 36}
SIZE = 50
ALONE, TOGETHER = 30, 300


class Process:
    """A process by its descriptors."""

    def __init__(self, folder):
        self.folder, self.descriptors = folder, []

    def answer(self, call):
        word, *rest = call
        if word != "open" and not self.descriptors:
            return "nothing"
        try:
            return getattr(self, word)(*rest)
        except OSError as error:
            return errno.errorcode[error.errno]

    def at(self, place):
        return self.descriptors[place % len(self.descriptors)]

    def open(self, file, flags):
        self.descriptors.append(os.open(os.path.join(self.folder, f"file-{file}"), flags))
        return "opened"

    def close(self, place):
        fd = self.at(place)
        self.descriptors.remove(fd)
        os.close(fd)
        return "closed"

    def dup(self, place):
        self.descriptors.append(os.dup(self.at(place)))
        return "copied"

    def dup2(self, place, other):
        os.dup2(self.at(place), self.at(other))
        return "copied"

    def seek(self, place, offset):
        os.lseek(self.at(place), offset, os.SEEK_SET)
        return "sought"

    def lock(self, place, command, kind, whence, start, length):
        found = fcntl.fcntl(self.at(place), COMMANDS[command], struct.pack(FLOCK, kind, whence, start, length, 0))
        if command.startswith("set"):
            return "done"
        return "free" if struct.unpack(FLOCK, found)[0] == fcntl.F_UNLCK else "blocked"


def random_call(choices):
    draw, place = choices.random(), choices.randrange(100)
    if draw < 0.06:
        return "open", choices.randrange(2), choices.choice([os.O_RDWR, os.O_RDWR, os.O_RDONLY, os.O_WRONLY])
    if draw < 0.13:
        return choices.choice(["close", "dup"]), place
    if draw < 0.15:
        return "dup2", place, choices.randrange(100)
    if draw < 0.18:
        return "seek", place, choices.randrange(SIZE)
    command = choices.choice(list(COMMANDS))
    kinds = [fcntl.F_RDLCK, fcntl.F_WRLCK] + [fcntl.F_UNLCK] * command.startswith("set")
    whence = choices.choice([os.SEEK_SET, os.SEEK_SET, os.SEEK_CUR, os.SEEK_END])
    return "lock", place, command, choices.choice(kinds), whence, choices.randrange(-3, SIZE), choices.choice([0, 1, 5, 20, -4])


def fork(process):
    """A child that answers the calls that are written to it: the pipe to it, and its answers."""
    (calls_end, calls), (answers, answers_end) = os.pipe(), os.pipe()
    if os.fork() == 0:
        os.close(calls)
        for line in os.fdopen(calls_end):
            os.write(answers_end, f"{process.answer(eval(line))}\n".encode())
        os._exit(0)
    os.close(calls_end)
    os.close(answers_end)
    return calls, os.fdopen(answers)


def main():
    folder, choices = sys.argv[1], random.Random(int(sys.argv[2]))
    for file in range(2):
        with open(os.path.join(folder, f"file-{file}"), "w", encoding="ascii") as text:
            text.write("x" * SIZE)
    process = Process(folder)
    for _call in range(ALONE):
        call = random_call(choices)
        print("parent", *call, process.answer(call))
    calls, answers = fork(process)
    for _call in range(TOGETHER):
        call = random_call(choices)
        if choices.random() < 0.5:
            print("parent", *call, process.answer(call))
        else:
            os.write(calls, f"{call}\n".encode())
            print("child", *call, answers.readline().strip())


if __name__ == "__main__":
    main()
