#!/usr/bin/env python3
"""Gives the program the largest texts for each pass, and prints what each takes: a table for docs/STATUS.md.

usage: perf/hostile.py [--program FILE] [--seconds N] [--gigabytes N] [CASE..]
The program is FILE, or what ./acute runs. A case passes where it has its answer within 30 times the seconds of a processor that
the refusal of a packet of 1,048,536 units takes in the same run, and within 600 MB. A run ends after N seconds (60), or where it
wants more than N GB (4). The status is 1 where a case fails.
"""
import statistics, sys, tempfile

import calls
from hostile_counts import COUNTS
from hostile_programs import PROGRAMS
from hostile_texts import TEXTS
from packets import LONGEST
from worst import measured
from worst_values import VALUES

TIMES, MEGABYTES = 30, 600


def yardstick(program, limit):
    """Returns the seconds that the refusal of 1 MiB of units takes, the mean of five runs, of the whole process."""
    runs = [measured(program, VALUES["format_units"], LONGEST, limit)[1] for _ in range(5)]
    if any(calls.last_line(it) != VALUES["format_units"].answer for it in runs):
        raise SystemExit(f"units aren't refused: {calls.told(runs[0])}")
    return statistics.mean(it.seconds for it in runs)


def ended(program, case, limit):
    """Runs a case, and returns the bytes of its files, and how the run ended."""
    files, words = case.make()
    with tempfile.TemporaryDirectory() as folder:
        for name, text in files.items():
            if isinstance(text, int):
                calls.save_zeros(folder, name, text)
            else:
                calls.save(folder, name, text)
        return calls.call([program, *words], folder, limit)


def answer_of(run):
    """Says how a run ended: accepted, what a refusal says, or what stopped it."""
    if run.status == 0:
        return "accepted"
    return calls.told(run).removeprefix("acute: ").removeprefix("refused: ")


def is_as(answer, wanted):
    return answer == wanted or answer.startswith(f"{wanted} at ")


def verdict(case, run, seconds):
    """Says PASS, or why a case fails."""
    why = []
    if not is_as(answer_of(run), case.answer):
        why.append(answer_of(run))
    if run.seconds > seconds:
        why.append(f"{run.seconds / seconds * TIMES:.0f} times")
    if run.megabytes > MEGABYTES:
        why.append(f"over {MEGABYTES} MB")
    return f"FAIL: {', '.join(why)}" if why else "PASS"


def main():
    words = calls.words_of(__doc__, [("seconds", 60), ("gigabytes", 4)])
    limit = calls.limits(words.seconds, words.gigabytes)
    cases = type(TEXTS)({**TEXTS, **COUNTS, **PROGRAMS}).chosen(words.names)
    unit = yardstick(words.program, limit)
    print(f"1,048,536 units are refused in {unit:.3f} s; so {TIMES * unit:.2f} s and {MEGABYTES} MB are allowed\n")
    print(calls.head(["case", "answer", "seconds", "memory", "verdict"]), flush=True)
    failed = 0
    for name, case in cases.items():
        run = ended(words.program, case, limit)
        said = verdict(case, run, TIMES * unit)
        failed += said != "PASS"
        cells = [f"`{name}`: {case.what}", case.answer, f"{run.seconds:.2f} s", f"{run.megabytes:.0f} MB", said]
        print(calls.row(cells), flush=True)
    print(f"\n{len(cases) - failed} of {len(cases)} pass")
    return failed > 0


if __name__ == "__main__":
    sys.exit(main())
