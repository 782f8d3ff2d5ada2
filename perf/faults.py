#!/usr/bin/env python3
"""How runs end over devices of which one call fails, by the rules of the program's documents alone.

Prints what crates/acute_faults_table must print of its input, which this reads: perf/faults.py <crates/acute_faults_table/stdin. It
knows what each of the programs there receives, sends and prints, and counts the calls up to the run in which none fails:

- a file is read in pieces of 4,096 bytes up to its end, which one read more finds: the list of a shelf, the texts in its order,
  then the programs;
- of a frame its four bytes of length are asked for, then those that it has, and nothing behind it;
- the channel's file is made when the run begins, and gets a piece for each string that is sent;
- each print is a write on the console, and what else a command prints is one.
"""

import sys

PIECE = 4096
HEAD = 4


class Program:
    """How many frames a program receives, how many strings it sends, and how many pieces it prints."""

    def __init__(self, receives, sends, prints):
        self.receives, self.sends, self.prints = receives, sends, prints


PROGRAMS = {"sender.ac": Program(0, 1, 0), "receiver.ac": Program(1, 0, 3), "twenty.ac": Program(0, 100, 1)}
# Of a chain the second program gets what the first has sent; one that has no program in front gets none.


class Device:
    """Counts the reads of a device that gives so much: all that is asked for, a byte, or 1 to 7 bytes by turns."""

    def __init__(self, pace):
        self.pace, self.reads = pace, 0

    def read(self, asked):
        most = {"whole": asked, "a byte": 1, "by turns": self.reads % 7 + 1}[self.pace]
        self.reads += 1
        return min(asked, most)

    def take(self, count):
        """Reads so many bytes that are asked for."""
        while count:
            count -= self.read(min(count, PIECE))

    def to_the_end(self, count):
        while count:
            count -= min(count, self.read(PIECE))
        self.read(PIECE)

    def receive(self, channel):
        length = int.from_bytes(channel[:HEAD], "big")
        self.take(HEAD)
        self.take(length)


class Desk:
    def __init__(self):
        self.files, self.input = {}, b""

    def texts(self, words):
        """The files that a command reads to their ends, in order, and the files and the options of its words."""
        names, options, i = [], {}, 1
        while i < len(words):
            if words[i].startswith("--"):
                options[words[i]] = words[i + 1] if i + 1 < len(words) else ""
                i += 2
            else:
                names.append(words[i])
                i += 1
        read = []
        if "--shelf" in options:
            listed = self.files[options["--shelf"]]
            read = [options["--shelf"]] + [line.split()[1].decode() for line in listed.splitlines()]
        return read + names, names, options

    def reads(self, words, pace):
        device = Device(pace)
        read, names, options = self.texts(words)
        for name in read:
            device.to_the_end(len(self.files[name]))
        channel = options.get("--in", "-")
        if channel != "-":
            for _ in range(PROGRAMS[names[0]].receives):
                device.receive(self.files[channel])
        return device.reads

    def inputs(self, names, pace):
        device = Device(pace)
        for _ in range(PROGRAMS[names[0]].receives):
            device.receive(self.input)
        return device.reads


def faults(desk, place, words, pace):
    """How many runs of a command fail, and how they end."""
    command = words[0]
    _, names, options = desk.texts(words)
    if place == "reads":
        return desk.reads(words, pace), "status 5 read fault"
    if place == "input":
        return desk.inputs(names, pace), "status 5 read fault"
    end = "status 6 write fault"
    sends = sum(PROGRAMS[name].sends for name in names if name in PROGRAMS)
    prints = sum(PROGRAMS[name].prints for name in names if name in PROGRAMS)
    to = options.get("--out")
    if place == "writes":
        return 1 + sends, end
    if command == "run":
        on_output = sends if to == "-" else prints
        return (on_output if place == "output" else prints * (to == "-")), end
    if command == "chain":
        prints += 1
    elif command == "make" and "--run" in options:
        prints = 1
    else:
        prints = 1
    return (prints if place == "output" else 0), end


def in_world(desk, place, name, pace):
    program = PROGRAMS[name]
    if place == "writes":
        return program.sends + program.prints, "write fault"
    return desk.inputs([name], pace), "read fault"


def line(count, end, last):
    failed = {0: "", 1: f"0 {end}, "}.get(count, f"0-{count - 1} {end}, ")
    return f"{failed}{count} {last}"


def main():
    desk, open_file = Desk(), None
    for text in sys.stdin:
        text = text.rstrip("\n")
        print(text)
        word, _, rest = text.partition(" ")
        if text.startswith("|"):
            desk.files[open_file] += text[1:].encode() + b"\n"
        elif word == "file":
            open_file, desk.files[rest] = rest, b""
        elif word == "bytes":
            name, _, digits = rest.partition(" ")
            desk.files[name] = bytes.fromhex(digits)
        elif word == "input":
            desk.input = bytes.fromhex(rest)
        elif word == "new":
            desk = Desk()
        elif word in ("call", "world"):
            place, *words = rest.split(" ")
            for pace in ("whole", "a byte", "by turns"):
                if word == "call":
                    print(f"{pace}: {line(*faults(desk, place, words, pace), 'status 0')}")
                else:
                    print(f"{pace}: {line(*in_world(desk, place, words[0], pace), 'finished')}")


if __name__ == "__main__":
    main()
