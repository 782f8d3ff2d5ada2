#!/usr/bin/env python3
"""Reads packets of the worst kind, and prints what each takes: a table for docs/STATUS.md.

usage: perf/worst.py [--program FILE] [--seconds N] [--gigabytes N] [CASE..]
Each case fills strings of 64 KB, 256 KB and 1 MiB as far as it can, which the program FILE reads, or what ./acute runs. A row
has of each size the bytes filled and seconds of a processor for the whole run, of the last run the memory in use at the most,
and how many times longer four times the bytes take. A run ends after N seconds (120), or where it wants more than N GB (6);
larger ones of its case are then left out. The status is 1 where a run that ended answers other than it has to.
"""
import sys, tempfile

import calls
from packets import LONGEST, frame
from worst_definitions import DEFINITIONS
from worst_values import VALUES

SIZES = [LONGEST // 16, LONGEST // 4, LONGEST]


def measured(program, case, size, limit):
    """Runs a case of that size, and returns the bytes that it fills of it, and how the run ended."""
    text, strings = case.make(size)
    filled = min(size, max(map(len, strings)))
    with tempfile.TemporaryDirectory() as folder:
        calls.save(folder, "reads.ac", text)
        calls.save(folder, "ch", b"".join(map(frame, strings)))
        return filled, calls.call([program, "run", "reads.ac", "--in", "ch"], folder, limit)


def runs_of(program, case, limit):
    """Runs a case in each size, up to the first run that takes too much."""
    runs = []
    for size in SIZES:
        runs.append(measured(program, case, size, limit))
        if runs[-1][1].status:
            break
    return runs


def seconds_told(ended):
    if ended.status:
        return f"{calls.told(ended)} after {ended.seconds:.1f} s"
    return f"{ended.seconds:.2f} s"


def is_wrong(case, ended):
    return ended.status == 0 and calls.last_line(ended) != case.answer


def growth(runs):
    """Returns how many times longer each run takes than the one before, for four times the bytes."""
    grown = []
    for (few, before), (many, after) in zip(runs, runs[1:]):
        if not after.status and before.seconds >= 0.01:
            grown.append(f"{after.seconds / before.seconds * 4 / (many / few):.1f}")
    return ", ".join(grown)


def row_of(name, case, runs):
    cells = [f"{size / 1024:.0f} K: {seconds_told(ended)}" for size, ended in runs]
    cells += [""] * (len(SIZES) - len(cells))
    answers = "; but: ".join([case.answer] + [calls.last_line(ended) for _, ended in runs if is_wrong(case, ended)])
    return calls.row([f"`{name}`: {case.what}", answers, *cells, f"{runs[-1][1].megabytes:.0f} MB", growth(runs)])


def main():
    words = calls.words_of(__doc__, [("seconds", 120), ("gigabytes", 6)])
    limit = calls.limits(words.seconds, words.gigabytes)
    cases = type(VALUES)({**VALUES, **DEFINITIONS}).chosen(words.names)
    print(calls.head(["case", "answer", *(f"{it >> 10} K" for it in SIZES), "memory", "times for four times the bytes"]), flush=True)
    wrong = False
    for name, case in cases.items():
        runs = runs_of(words.program, case, limit)
        wrong = wrong or any(is_wrong(case, ended) for _, ended in runs)
        print(row_of(name, case, runs), flush=True)
    return wrong


if __name__ == "__main__":
    sys.exit(main())
