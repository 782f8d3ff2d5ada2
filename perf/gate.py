#!/usr/bin/env python3
"""Runs the gate and prints what it cost: the rows of the table in docs/COSTS.md, and the sums above it.

usage: perf/gate.py [--kept]
All is proved anew, or with --kept, where the kit keeps what passed, only what no earlier run on this machine passed. The
machine should have nothing else to do.
Right before and after the gate it proves the crate UNIT alone; the mean of the two is the unit of the last column, so that
runs on two machines can be compared. The gate's output goes to the file gate.log of the folder that it names. A row has, of
a crate: functions, lines of src, specs and proofs, seconds of a processor for the proof, for the tests, and for the edits
with the proof that they begin with, the number of edits, GB at the most in one process, and all its seconds in units. Every
two seconds it looks at what each process that the gate began has used.
"""
import collections, functools, os, re, subprocess, sys, tempfile, time

from processes import stolen, text_of, watch

TOP = os.path.dirname(os.path.dirname(os.path.abspath(__file__)))
# the crate whose proof alone is the unit of costs
UNIT = "ac_types"


def costs_of(processes):
    """Returns the seconds by crate and kind, and the most memory of one process by crate."""
    seconds, held = collections.defaultdict(collections.Counter), collections.Counter()
    for it in processes:
        held[it.crate()] = max(held[it.crate()], it.held)
        seconds[it.crate()][it.kind()] += it.seconds
    return seconds, held


def functions_of(log):
    """Returns how many functions the prover counted in each crate."""
    found, crate = {}, None
    for line in text_of(log).split("\n"):
        head, counted = re.fullmatch(r"== (\w+)(: its tests)?", line), re.match(r"logic=proved functions=(\d+)", line)
        if head:
            crate = None if head[2] else head[1]
        elif counted and crate:
            found[crate] = counted[1]
    return found


def below():
    """Returns the crates in their order, each with those that it names."""
    lines = re.findall(r"^(\w+)[^:\n]*:(.*)$", text_of(f"{TOP}/crates.txt"), re.M)
    return {crate: names.split() for crate, names in lines}


def lines_of(crate, part, ending):
    walked = os.walk(f"{TOP}/crates/{crate}/{part}")
    return sum(text_of(f"{at}/{name}").count("\n") for at, _, names in walked for name in names if name.endswith(ending))


def unit_of(anew):
    """Returns the seconds of a processor that the proof of the crate UNIT takes alone, if the kit proves one crate anew."""
    if not anew:
        return None
    status, processes, _ = watch(["rt", "ci", *anew, UNIT], TOP, os.devnull)
    return None if status else costs_of(processes)[0][UNIT]["proof"]


def row(crate, functions, seconds, held, unit):
    lines = [lines_of(crate, *it) for it in (("src", ".rt"), ("specs", ".antt"), ("proofs", ".antt"))]
    edits = len(os.listdir(folder)) if os.path.isdir(folder := f"{TOP}/crates/{crate}/must-fail") else 0
    proof, tests, tried = (f"{seconds[kind]:.0f}" if seconds[kind] else "" for kind in ("proof", "tests", "edits"))
    tried = f"{tried} ({edits})" if edits else ""
    told = f"{functions.get(crate, '')} | {' / '.join(map(str, lines))} | {proof} | {tests} | {tried} | {held / 1e9:.1f}"
    return f"| `{crate}` | {told} | {in_units(sum(seconds.values()), unit)} |"


def in_units(seconds, unit):
    return f"{seconds / unit:.2f}" if unit else ""


def longest_chain(crates, seconds):
    """Returns how long the proofs take together that wait for one another, where that is longest, and of which crates they are."""

    @functools.cache
    def up_to(crate):
        longest, chain = max((up_to(it) for it in crates[crate] if it in crates), default=(0, ()))
        return longest + seconds[crate]["proof"], (*chain, crate)

    return max(map(up_to, crates))


def anew():
    """Returns the flag for a run that proves all anew. A kit that keeps nothing does so each time, and its help has no such flag."""
    told = subprocess.run(["rt", "help"], stdout=subprocess.PIPE, stderr=subprocess.STDOUT, text=True, errors="replace").stdout
    return ["--anew"] if "--anew" in told else []


def print_sums(crates, seconds, unit):
    sums = {kind: sum(seconds[it][kind] for it in crates) for kind in ("proof", "tests", "edits")}
    told = ", ".join(f"{kind} {it / 60:.0f}" for kind, it in sums.items())
    print(f"minutes of a processor: {sum(sums.values()) / 60:.0f} ({told})")
    if unit:
        told = ", ".join(f"{kind} {in_units(it, unit)}" for kind, it in sums.items())
        print(f"units of {unit:.0f} seconds: {in_units(sum(sums.values()), unit)} ({told})")
    longest, chain = longest_chain(crates, seconds)
    print(f"longest chain of proofs: {longest / 60:.0f} minutes of a processor: {', '.join(chain)}")


def main():
    is_kept = "--kept" in sys.argv[1:]
    words = ["rt", "ci", *([] if is_kept else anew())]
    log = f"{tempfile.mkdtemp(prefix='gate-')}/gate.log"
    print(f"{' '.join(words)}, with its output in {log}", flush=True)
    units = [unit_of(anew())]
    begun, taken = time.time(), stolen()
    status, processes, most = watch(words, TOP, log)
    minutes, taken = (time.time() - begun) / 60, (stolen() - taken) / 60
    units.append(unit_of(anew()))
    unit = None if None in units else sum(units) / len(units)
    seconds, held = costs_of(processes)
    crates, functions = below(), functions_of(log)
    for crate in crates:
        print(row(crate, functions, seconds[crate], held[crate], unit))
    print(f"last line: {text_of(log).rstrip().rpartition(chr(10))[2]}")
    print(f"minutes: {minutes:.0f}, of {os.cpu_count()} processors; at most {most / 1e9:.1f} GB in use on the machine; the host gave {taken:.0f} minutes of a processor to others")
    print(f"{UNIT} alone, before and after: {units} seconds of a processor")
    print_sums(crates, seconds, unit)
    return status


if __name__ == "__main__":
    sys.exit(main())
