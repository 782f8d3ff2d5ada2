#!/usr/bin/env python3
"""Finds texts of docs/TUTORIAL.md that the gate doesn't run.

usage: perf/tutorial.py
Each block of code in the tutorial has to be a part of a file in examples/tutorial, or command lines, or lines that the
stored run of acute_commands_table prints. Each program there has to be named in the tutorial. Each finding is one line, and
the status is 1 where there is one.
"""
import glob, os, re, sys

TOP = os.path.dirname(os.path.dirname(os.path.abspath(__file__)))
COMMAND = re.compile(r"(acute|mkdir|cp|ln|alias|:|  acute) ")


def text_of(file):
    with open(f"{TOP}/{file}", encoding="latin-1") as it:
        return it.read()


def main():
    files = {os.path.basename(it): text_of(os.path.relpath(it, TOP)) for it in glob.glob(f"{TOP}/examples/tutorial/*.ac")}
    printed = {re.sub(r"^(output |errors )?\|", "", it) for it in text_of("crates/acute_commands_table/stdout").split("\n")}
    tutorial = text_of("docs/TUTORIAL.md")
    found = [f"{name} isn't named" for name in sorted(files) if name not in tutorial]
    for block in re.findall(r"^```\n(.*?)^```$", tutorial, re.M | re.S):
        lines = block.rstrip("\n").split("\n")
        is_text = any(block in it for it in files.values())
        if not is_text and not all(COMMAND.match(it) for it in lines) and not set(lines) <= printed:
            found.append(f"no file has this, and nothing prints it: {lines[0]} ..")
    print("\n".join(found), end="\n" if found else "")
    sys.exit(1 if found else 0)


main()
