#!/usr/bin/env python3
"""Gives the program hostile command lines: words that are no text, empty, very many, very long, or names with line feeds.

usage: perf/words.py [--program FILE] [NAME..]
The program is FILE, or what ./acute runs. A row has a command line and the status that it has to end with; where it ends with
another one, or prints anything else on errors than the line of that status, the row says so, and the status is 1. Of a kind of
lines that all end as they have to there is one row. A NAME keeps the kinds of that name.
"""
import errno, os, sys, tempfile

import calls

LINES = {0: b"", 1: b"", 5: b"acute: read fault\n", 6: b"acute: write fault\n", 7: b"acute: words refused\n"}
LONGEST_WORD = 131_071  # bytes that Linux hands on in one word
MANY, MEGABYTE = 100_000, 1_000_000

FILES = {
    "a.ac": "IO.print_int 7",
    "line\nfeed.ac": "IO.print_int 7",
    " .ac": "IO.print_int 7",
    "\u00e9.ac": "IO.print_int 7",
    "=.ac": "IO.print_int 7",
    "@a.ac": "IO.print_int 7",
}

# Words that give no command: bytes that are no UTF-8, in each place of a word.
NO_TEXT = [b"\xff", b"a\xffb", b"\xc3", b"\xc0\xaf", b"\xed\xa0\x80", b"\xf4\x90\x80\x80", b"\xe2\x82"]


def no_text():
    """words that are no UTF-8"""
    for bad in NO_TEXT:
        yield 7, [bad]
        yield 7, [b"run", bad]
        yield 7, [b"run", b"a.ac", bad]
        yield 7, [b"run", b"a.ac", b"--in", bad]
        yield 7, [b"run", b"a.ac", b"--steps=" + bad]
        yield 7, [b"check", b"a.ac", bad]
        yield 7, [b"make", b"1", bad]


def empty():
    """empty words"""
    yield 7, []
    yield 7, [""]
    for command in ("run", "names", "code", "check", "chain", "make", "audit", "pipe"):
        yield 7, [command, ""]
        yield 7, ["", command, "a.ac"]
        yield 7, [command, "a.ac", "", ""]
    for option in ("--in", "--out", "--shelf", "--steps"):
        yield 7, ["run", "a.ac", option, ""]
        yield 7, ["run", "a.ac", f"{option}="]
        yield 7, ["run", "a.ac", option]
    yield 7, ["make", "1", ""]


def many():
    """100,000 words, and one too many"""
    for command in ("run", "names", "code", "check", "chain", "make", "audit", "pipe", "fly", ""):
        yield 7, [command] + ["a.ac"] * MANY
        yield 7, [command] + ["--steps=1"] * MANY
        yield 7, [command] + [""] * MANY
    yield 0, ["check"] + ["a.ac"] * 256
    yield 7, ["check"] + ["a.ac"] * 257
    yield 0, ["chain"] + ["a.ac"] * 16
    yield 7, ["chain"] + ["a.ac"] * 17


def long():
    """words of 131,071 bytes"""
    word = "a" * LONGEST_WORD
    yield 7, [word]
    yield 5, ["run", word]
    yield 5, ["check", word, "a.ac"]
    yield 5, ["run", "a.ac", "--shelf", word]
    yield 0, ["run", "a.ac", "--in", word]
    yield 6, ["run", "a.ac", "--out", word]
    yield 7, ["run", "a.ac", "--steps", "1" * LONGEST_WORD]
    yield 7, ["run", "a.ac", "--steps", "0" * LONGEST_WORD]
    yield 7, ["run", "a.ac", "--" + word[2:]]
    yield 7, ["make", "1" * LONGEST_WORD, "1"]
    yield 0, ["make", "0" * (LONGEST_WORD - 1) + "1", "1"]
    yield 7, ["check"] + [word] * 10 + ["--"]


def line_feeds():
    """names with line feeds, blanks and other signs"""
    for name in FILES:
        yield 0, ["run", name]
        yield 0, ["check", name]
    yield 5, ["run", "none\n.ac"]
    yield 5, ["run", "\n"]
    yield 5, ["run", "a.ac\n"]
    yield 5, ["run", "a.ac", "--shelf", "\n"]
    yield 0, ["run", "a.ac", "--in", "\n"]
    yield 0, ["run", "a.ac", "--out", "new\nname"]
    for word in ("run\n", "\nrun", "run ", " run", "RUN", "run\ta.ac"):
        yield 7, [word, "a.ac"]
    yield 7, ["run", "a.ac", "--steps", "1\n"]
    yield 7, ["run", "a.ac", "--steps\n", "1"]


def numbers():
    """numbers out of range, or not of decimal digits"""
    for steps in ("0", "1", "0000000001", "1000000000"):
        yield 0, ["run", "a.ac", "--steps", steps]
    for steps in ("-1", "+1", " 1", "1 ", "1_0", "0x1", "1.0", "1e3", "\uff11", "\u0661", "1000000001", "00000000001", "a"):
        yield 7, ["run", "a.ac", "--steps", steps]
        yield 7, ["run", "a.ac", f"--steps={steps}"]
    yield 0, ["make", "18446744073709551615", "1"]
    for seed in ("18446744073709551616", "-1", "+1", "\uff11", "1 ", "a"):
        yield 7, ["make", seed, "1"]
    for modules in ("0", "1001", "-1", "+1", "\uff11", "a"):
        yield 7, ["make", "1", modules]


def options():
    """options that aren't, or stand twice"""
    for word in ("--", "-h", "--help", "-V", "--version", "--st=1", "--steps1", "-steps=1", "---in=a", "-1", "--run", "--=", "-="):
        yield 7, ["run", "a.ac", word]
        yield 7, ["run", word, "a.ac"]
        yield 7, [word]
    for option in ("--in", "--out", "--shelf", "--steps"):
        yield 7, ["run", "a.ac", f"{option}=1", f"{option}=1"]
        yield 7, ["run", "a.ac", option, "-1"]
        yield 7, ["run", "a.ac", option, "--"]
        yield 7, ["names", "a.ac", option, option]
    yield 7, ["run", "a.ac", "--in", "ch", "--out", "ch"]
    yield 0, ["run", "a.ac", "--in", "-", "--out", "-"]
    yield 7, ["run", "-"]
    yield 7, ["run", "a.ac", "--shelf", "-"]
    yield 7, ["check", "a.ac", "--shelf", "none", "a.ac"]
    yield 7, ["make", "1", "1", "--run", "--run"]
    yield 7, ["make", "1", "1", "--run=1"]
    yield 7, ["help"]


KINDS = {it.__name__: it for it in (no_text, empty, many, long, line_feeds, numbers, options)}


def short(words):
    """Returns a command line as a row has it."""
    told = " ".join(ascii(os.fsdecode(it))[1:-1] or "''" for it in words[:6])
    return (told if len(told) < 80 else told[:77] + "..") + (f" .. ({len(words)} words)" if len(words) > 6 else "")


def fault(program, folder, status, words):
    """Returns what is wrong with the end of a command line, or nothing."""
    ended = calls.call([program, *words], folder)
    # (what is printed goes to errors where the channel goes to output)
    printed = b"7" if "--out" in words and "-" in words and status == 0 else b""
    if (ended.status, ended.errors) == (status, printed + LINES[status]):
        return None
    return calls.row([f"`{short(words)}`", status, f"status {ended.status}, {ended.errors[:60]!r}"])


def beyond(program, folder):
    """Says what becomes of a word of 1 MB."""
    try:
        ended = calls.call([program, "run", "a" * MEGABYTE], folder)
    except OSError as refused:
        return "the system hands no such word on" if refused.errno == errno.E2BIG else str(refused)
    return f"status {ended.status}, {ended.errors[:60]!r}"


def try_kind(program, kind):
    """Tries the command lines of a kind, prints what is wrong, and returns how many are."""
    with tempfile.TemporaryDirectory() as folder:
        for name, text in FILES.items():
            calls.save(folder, name, text)
        each = list(kind())
        faults = [it for it in (fault(program, folder, *one) for one in each) if it]
    print("\n".join([*faults, calls.row([kind.__doc__, "", f"{len(each) - len(faults)} of {len(each)} as they have to"])]), flush=True)
    return len(faults)


def main():
    words = calls.words_of(__doc__)
    print(calls.head(["command line", "wanted", "status"]), flush=True)
    wrong = sum(try_kind(words.program, kind) for name, kind in KINDS.items() if not words.names or name in words.names)
    print(calls.row(["a word of 1 MB", "", beyond(words.program, tempfile.gettempdir())]))
    return wrong > 0


if __name__ == "__main__":
    sys.exit(main())
