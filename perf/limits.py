#!/usr/bin/env python3
"""Finds limits and tags that stand bare in code and in definitions.

usage: perf/limits.py
Each limit has one name, in ac_types/src/limits.rt and in ac_types/specs/Limits.antt. Each tag of a spelling has one, in
ac_terms/src/tags.rt and in ac_terms/specs/Tags.antt. Elsewhere in src/ and specs/ a line FILE:LINE: TEXT is printed for a
number that is a limit or one more (in comments and texts where it is 100 or more), for a byte in hexadecimal digits, and
for what packets begin with. So is a name of code that isn't defined, or is another number there. The status is 1 where
anything is printed, and 0 where nothing is. Crates of tests and tables are passed over: what they expect isn't taken from
the program.
"""
import pathlib, re, sys

CRATES = pathlib.Path(__file__).resolve().parent.parent / "crates"
HOMES = [("ac_types/src/limits.rt", "ac_types/specs/Limits.antt"), ("ac_terms/src/tags.rt", "ac_terms/specs/Tags.antt")]
TESTS = re.compile(r"\w+_(tests|table)/|ac_text/src/page\.rt|(ac_table_text|ac_table_pile|ac_table_ranges)/")

NUMBER = re.compile(r"(?<![\w.])(0x[0-9A-Fa-f]+|[0-9][0-9_]*)([iu](8|16|32|64|size))?(?![\w.])")
SAID = re.compile(r"(?<![\w.,^-])[0-9]{1,3}(,[0-9]{3})*(?![\w,])")
MARK = re.compile(r"ACUP|0x41435550|1094931792")

# Numbers that are equal to a limit and are none, by what stands around them.
OTHERS = [
    (r"(2|256) \^ \w+", "the width of a number"),
    (r"byte [/%] 16\b", "the digits of a byte"),
    (r"% (256|65_536|4_294_967_296)(?=\)? as u)|slice_index bs i < 256|bytes_read 8\b", "the bytes of a number"),
    (r"const (PIECE|MOST_PIECES|STACK|SHOWN|STEPS|MANY|MORE|DIGITS|GREATEST_INT|LEAST_INT): \w+ = .*;", "how much is read, shown or kept at once"),
]
# Files with numbers of their own, the greatest of them, and what they are.
OWN = [
    (r"ac_types/(src/(exceptions|primitives)\.rt|specs/(Exceptions|Primitives)\.antt)", 16, "exceptions and primitives"),
    (r"(acute_answers|lens_top)/src/status\.rt", 11, "statuses"),
    (r"ac_bytes/.*", 256, "the bytes of numbers"),
    (r"ac_syntax/specs/(Expressions|TypeForms)\.antt|ac_parser_(expressions/specs/inner/Levels|patterns/specs/Pieces)\.antt", 9, "the levels of operators"),
    (r"ac_lexer/(src/(quoted|words)\.rt|specs/(Gaps|Spellings)\.antt)|ac_text/.*", 16, "characters and digits"),
    (r"acute_words/(src/values\.rt|specs/WordValues\.antt)", 10, "digits"),
    (r"(acute_answers|acute_top|acute_chain|acute_pipe|acute_files|ac_text)/specs/.*", 10, "line feeds"),
    (r"lens_(say/src/excerpt|hints/src/lexical)\.rt", 255, "bytes of characters"),
    (r"ac_channels/(src/reading\.rt|specs/ChannelFrames\.antt)", 67_108_864, "the limits of a channel that is read whole"),
    (r"ac_make/.*", 1000, "the numbers that are drawn"),
]


def values(file, line):
    """Returns the numbers that a file gives to names."""
    found = {}
    for name, value in re.findall(line, (CRATES / file).read_text(encoding="utf-8"), re.M):
        value = re.sub(r" as \w+", "", value).replace("^", "**")
        if re.fullmatch(r"[\w *+<()-]+", value):
            found[name.lower()] = eval(value.lower(), {}, dict(found))
    return found


def parted(text, is_code):
    """Returns a line without its texts and its comment, and these two."""
    texts = " ".join(found[0] for found in re.finditer(r'"(\\.|[^"\\])*"', text))
    text = re.sub(r'b?"(\\.|[^"\\])*"', '""', text)
    text = re.sub(r"b?'(\\.|[^'\\])'", "''", text)
    code, _, comment = text.partition("//" if is_code else "--")
    return code, texts + " " + comment


def is_bare(file, text, limits):
    """Whether a line has a limit, a tag or the mark of packets in it."""
    code, words = parted(text, file.endswith(".rt"))
    if limits.intersection(n for n in (int(said[0].replace(",", "")) for said in SAID.finditer(words)) if n >= 100):
        return True
    for form, _ in OTHERS:
        code = re.sub(form, "", code)
    if MARK.search(code) or '"ACUP' in words:
        return True
    for number in NUMBER.finditer(code):
        if number[1].startswith("0x"):
            return True
        value = int(number[1].replace("_", ""))
        if value in limits and not any(value <= most and re.fullmatch(own, file) for own, most, _ in OWN):
            return True
    return False


def main():
    findings, limits = [], set()
    for code, specs in HOMES:
        named = values(code, r"^pub const (\w+): \w+ = (.*);$")
        defined = values(specs, r"^(\w+) = (.*)$")
        findings += [f"{code}: {name.upper()}" for name in named if defined.get(name) != named[name]]
        if code == HOMES[0][0]:
            limits = {n + more for n in [*named.values(), *defined.values()] for more in (0, 1)}
    for path in sorted([*CRATES.glob("*/src/**/*.rt"), *CRATES.glob("*/specs/**/*.antt")]):
        file = str(path.relative_to(CRATES))
        if TESTS.match(file) or any(file in home for home in HOMES):
            continue
        for number, text in enumerate(path.read_text(encoding="utf-8").split("\n"), 1):
            if not re.match(r"(pub |ghost )?use ", text) and is_bare(file, text, limits):
                findings.append(f"{file}:{number}: {text.strip()}")
    print("".join(finding + "\n" for finding in findings), end="")
    return 1 if findings else 0


if __name__ == "__main__":
    sys.exit(main())
