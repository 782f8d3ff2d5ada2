#!/usr/bin/env python3
"""Gives the program the deepest texts and packets, with 8 MB of stack and with no limit of it: its answers have to be the same.

usage: perf/stack.py [--program FILE] [--least 1] [NAME..]
The program is FILE, or what ./acute runs. Texts are given to run, to check (two at a time, each in a thread of its own) and to
chain, packets to run and to chain. What goes wrong is printed, a row each, and then how many answer as they have to. With
--least 1 it is looked for how many KB of stack each command needs for that. A NAME keeps what has it in its own name.
"""
import concurrent.futures, os, sys, tempfile

import calls
import deep
from packets import LONGEST, frame

STACKS = [8192, "unlimited"]
READS = """mark "M" try let v:{0}=unmarshal(IO.receive())as {0} in
  IO.print_string "accepted, "; IO.print_int(Str.length(marshal "M" v:{0})){1}
with Unmarshal_failure(w:string)->IO.print_string w | _->IO.print_string ", raised" end"""


class Deep:
    """A text or a packet: its files, and the words of each command."""

    def __init__(self, name, files, words, wanted):
        self.name, self.files, self.words, self.wanted = name, files, words, wanted

    def answer(self, program, command, stack):
        """Returns how a command ends with that stack."""
        with tempfile.TemporaryDirectory() as folder:
            for name, content in self.files.items():
                calls.save(folder, name, content)
            return calls.call([program, *self.words[command]], folder, calls.limits(stack=stack))[:3]


def of_text(name, text):
    """Returns a text with its commands. What is accepted may print and raise."""
    words = {"run": ["run", "a.ac"], "check": ["check", "a.ac", "a.ac"], "chain": ["chain", "a.ac"]}
    wanted = {"run": "", "check": "a.ac: accepted\n" * 2, "chain": "program 1: status"}
    if name in deep.REFUSED_TEXTS:
        refusal = deep.REFUSED_TEXTS[name]
        wanted = {"run": f"refused: {refusal}", "check": f"a.ac: refused: {refusal}\n" * 2, "chain": f"refused: program 1: {refusal}"}
    return Deep(name, {"a.ac": text}, words, wanted)


def of_packet(name, its_type, string):
    """Returns a packet with its commands; by chain it comes from a program that has it as a literal, if that isn't too long."""
    read = READS.format(its_type, ";v()" if its_type == "unit->unit" else "")
    literal = "".join(f"\\x{byte:02x}" for byte in string)
    send = f'IO.send "{literal}"'
    words = {"run": ["run", "r.ac", "--in", "ch"]}
    if len(send) <= LONGEST:
        words["chain"] = ["chain", "s.ac", "r.ac"]
    answer = deep.REFUSED_STRINGS.get(name, "accepted, ")
    return Deep(f"packet: {name}", {"r.ac": read, "s.ac": send, "ch": frame(string)}, words, dict.fromkeys(words, answer))


def all_deep(names):
    """Returns all texts and packets, or those with one of these names in theirs."""
    both = [of_text(*it) for it in deep.texts().items()] + [of_packet(name, *it) for name, it in deep.strings().items()]
    return [it for it in both if not names or any(name in it.name for name in names)]


def has_answered(status, output, errors, wanted):
    """Says whether a command ended by itself, and with what it has to print."""
    return 0 <= status < 4 and wanted.encode() in output + errors


def shown(status, output, errors):
    said = calls.last_line(calls.Ended(status, output, errors, 0, 0))[:60]
    return f"signal {-status}" if status < 0 else f"status {status}, {said}"


def fault(program, one, command):
    """Returns what is wrong with the answers of a command, or nothing."""
    ends = [one.answer(program, command, stack) for stack in STACKS]
    if ends[0] == ends[1] and has_answered(*ends[0], one.wanted[command]):
        return None
    return calls.row([one.name, command, *(shown(*it) for it in ends)])


def is_enough(program, some, command, stack):
    """Says whether all answer as they have to with that stack."""
    return all(has_answered(*one.answer(program, command, stack), one.wanted[command]) for one in some if command in one.words)


def least(program, some, command):
    """Returns the least stack, in KB and to 128 of them, that is enough for a command."""
    too_few, enough = 128, STACKS[0]
    while enough - too_few > 128:
        half = (too_few + enough) // 2
        if is_enough(program, some, command, half):
            enough = half
        else:
            too_few = half
    return enough


def main():
    words = calls.words_of(__doc__, [("least", 0)])
    some = all_deep(words.names)
    each = [(one, command) for one in some for command in one.words]
    print(calls.head(["what", "command", *(f"stack {it}" for it in STACKS)]), flush=True)
    with concurrent.futures.ThreadPoolExecutor(os.cpu_count()) as pool:
        faults = [it for it in pool.map(lambda it: fault(words.program, *it), each) if it]
    print("\n".join(faults))
    print(f"\n{len(each) - len(faults)} of {len(each)} answers are as they have to be, {len(some)} texts and packets", flush=True)
    for command in ("run", "check", "chain") if words.least else ():
        print(f"{command} needs {least(words.program, some, command)} KB of stack", flush=True)
    return len(faults) > 0


if __name__ == "__main__":
    sys.exit(main())
