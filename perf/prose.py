#!/usr/bin/env python3
"""Finds what is too long to read: sentences of more than 30 words, table cells of more than 25, and a README of more than 1,500.

usage: perf/prose.py [FILE ..]
Without files it takes README.md and the documents that a user reads. Each finding is one line: FILE:LINE, the number of
words, and how the sentence or the cell begins. The last line says how many words README.md has, as `wc -w` counts them. The
status is 1 where there is a finding, and 0 where there is none.

A sentence ends with `.`, `!` or `?` before a blank, and with its paragraph, list item or heading. A colon and a semicolon end
none. Blocks of code don't count, words of code within a sentence do. A link counts as its text.
"""
import os, re, sys

TOP = os.path.dirname(os.path.dirname(os.path.abspath(__file__)))
DOCUMENTS = ["README.md"] + [f"docs/{name}.md" for name in ("TUTORIAL", "LANGUAGE", "LIBRARY", "FAULTS", "THEOREM", "TRANSPORT")]
MOST_IN_SENTENCE, MOST_IN_CELL, MOST_IN_README = 30, 25, 1500

ITEM = re.compile(r"\s*([-*+]|\d+[.)])\s+")
HEADING = re.compile(r"#+\s+")
RULE = re.compile(r"\|?[\s:|-]+\|?$")
SPAN = re.compile(r"(`+)(.+?)\1", re.S)
END = re.compile(r"(?<!\.)[.!?][\"')\]*]*\s+")
# Marks inside code, and what stands for them meanwhile.
MARKS, OTHERS = ".!?", "\1\2\3"
HIDDEN, SHOWN = str.maketrans(MARKS, OTHERS), str.maketrans(OTHERS, MARKS)


def text_of(file):
    with open(file, encoding="utf-8") as it:
        return it.read()


def plain(text):
    """Returns the text with as many words, in which no mark inside code ends a sentence, and with links as their texts."""
    text = SPAN.sub(lambda span: span[0].translate(HIDDEN), text)
    return re.sub(r"\[([^]]*)\]\([^)]*\)", r"\1", text)


def cells(row):
    """Returns the cells of a row: a bar inside code or behind a backslash divides none."""
    row = SPAN.sub(lambda span: span[0].replace("|", "/"), row.strip().replace(r"\|", "/"))
    return row.strip("|").split("|")


def sentences(text):
    at = 0
    for end in END.finditer(text + "\n"):
        yield text[at:end.end()]
        at = end.end()
    yield text[at:]


def parts(text):
    """Yields what stands by itself: whether it is a cell, the number of its first line, and its text."""
    begun, held, in_code = 0, [], False
    for number, line in enumerate(text.split("\n") + [""], 1):
        fence = line.lstrip().startswith("```")
        marked = ITEM.match(line) or HEADING.match(line)
        in_row = not in_code and line.lstrip().startswith("|")
        if held and (fence or marked or in_row or not line.strip()):
            yield False, begun, "\n".join(held)
            held = []
        if fence:
            in_code = not in_code
        elif in_row:
            if not RULE.match(line.strip()):
                for cell in cells(line):
                    yield True, number, cell
        elif line.strip() and not in_code:
            begun = begun if held else number
            held.append(line[marked.end():] if marked else line)
            if HEADING.match(line):
                yield False, begun, held.pop()


def too_long(file):
    """Yields a line for each sentence and each cell of the file that has too many words."""
    for is_cell, number, text in parts(text_of(file)):
        text = plain(text)
        for piece in [text] if is_cell else sentences(text):
            words = piece.split()
            if len(words) > (MOST_IN_CELL if is_cell else MOST_IN_SENTENCE):
                kind = "cell" if is_cell else "sentence"
                before = text[:text.find(piece)].count("\n")
                begins = " ".join(words[:9]).translate(SHOWN)
                yield f"{os.path.relpath(file, TOP)}:{number + before}: {kind} of {len(words)} words: {begins} .."


def main():
    found = False
    for file in sys.argv[1:] or [os.path.join(TOP, name) for name in DOCUMENTS]:
        if not os.path.exists(file):
            found = True
            print(f"{os.path.relpath(file, TOP)}: no such file")
            continue
        for line in too_long(os.path.abspath(file)):
            found = True
            print(line)
    words = len(text_of(os.path.join(TOP, "README.md")).split())
    found |= words > MOST_IN_README
    print(f"README.md has {words} words, of {MOST_IN_README} at most")
    return 1 if found else 0


sys.exit(main())
