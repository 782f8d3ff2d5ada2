#!/usr/bin/env python3
"""Compares docs/READING.md with the definitions that the contract of `acute` and the law `native_provenance` use.

usage: perf/reading.py [--list]
It follows names from the contract in crates/acute_top/src/top.rt and from the law in laws.rt beside it through the files of
specs/. It prints the files that READING lists and that they don't use, those that they use and that READING lacks, and of
rows as `FILE`: `NAME`, .. the names that aren't used. The status is 1 where there are any. With --list it prints each file that is used, how many of its
definitions are, and the names of the others.

A definition counts as using each name in it that its file has or takes from another file, be it only a field of that name.
"""
import os, re, sys

TOP = os.path.dirname(os.path.dirname(os.path.abspath(__file__)))
USE = re.compile(r"\s*(?:ghost )?(pub )?use Rattle\.([\w.]+?)(?:\.\{(.*)\})?(?: as (\w+))?;?$")
BEGINS = re.compile(r"(\s*)(?:pub\s+)?(abbrev|data|record|unfoldable|module)\s+(?:pub\s+)?(\S+)")
PART = re.compile(r"^\s+(?:pub\s+)?([^\s:]+)\s*:\s", re.M)
WORD = re.compile(r"[^\s(){}\[\],;]+")


def text_of(*path):
    with open(os.path.join(TOP, *path), encoding="utf-8") as it:
        return it.read()


def taken(line):
    """Returns what a line takes from another file: the file, the names or None for all, another name for it, and whether it is
    given on; or None where the line takes nothing."""
    use = USE.match(line)
    if use:
        names = [name.strip() for name in use[3].split(",")] if use[3] else None
        return use[2].replace(".", "/"), names, use[4], bool(use[1])


def words_of(text):
    """Returns the words of a text, also the parts of those with dots."""
    words = {word.lstrip("λ").rstrip(".") for word in WORD.findall(text)}
    return words | {part for word in words for part in word.split(".")}


class Specs:
    """A file of definitions: the lines of each, which one has a constructor or a field, and what it takes from other files."""

    def __init__(self, text):
        self.uses, self.lines, self.indents = [], {}, {}
        # the groups with parameters around a line, and the definitions that it may belong to, with their indents
        self.groups, self.open = [], []
        for line in text.split("\n"):
            self.read(line.partition("--")[0].rstrip())
        self.texts = {name: "\n".join(lines) for name, lines in self.lines.items()}
        self.owners = {part: name for name, text in self.texts.items() for part in PART.findall(text)}

    def read(self, line):
        use, begins = taken(line), BEGINS.match(line)
        if use:
            self.uses.append(use)
        elif begins:
            self.begin(len(begins[1]), begins[2], begins[3], line)
        elif line:
            first = line.split()[0]
            starts = self.indents.get(first) == len(line) - len(line.lstrip())
            name = first if starts else self.open[-1][1] if self.open else None
            self.lines.get(name, []).append(line)

    def begin(self, indent, kind, name, line):
        self.open = [it for it in self.open if it[0] < indent]
        self.groups = [it for it in self.groups if it[0] < indent]
        if kind == "module":
            self.groups.append((indent, line))
        else:
            self.lines.setdefault(name, []).extend([group for _, group in self.groups] + [line])
            self.indents[name] = indent
        self.open.append((indent, name))

    def definition(self, name):
        return name if name in self.texts else self.owners.get(name)


class Contract:
    """The definitions that the contract of `acute` and the law use, by file."""

    def __init__(self):
        self.files, self.used, self.pending = {}, {}, []
        self.begin("top.rt", r"pub fn acute.*?\n\{\n")
        self.begin("laws.rt", r"pub fn native_provenance.*?\n\{\}\n")
        while self.pending:
            self.follow(*self.pending.pop())

    def begin(self, source, call):
        text = text_of("crates", "acute_top", "src", source)
        words = words_of(re.search(call, text, re.S)[0])
        for file, names, _, _ in filter(None, map(taken, text.split("\n"))):
            for name in set(names or []) & words:
                self.need(file, name)

    def specs(self, file):
        """Returns a file of definitions, or None for one of the kit or of declarations."""
        if file not in self.files:
            there = os.path.exists(os.path.join(TOP, "crates", f"{file}.antt"))
            self.files[file] = Specs(text_of("crates", f"{file}.antt")) if there else None
        return self.files[file]

    def need(self, file, name):
        specs = self.specs(file)
        if not specs:
            return
        found = specs.definition(name)
        if not found:
            for other, names, _, given_on in specs.uses:
                if given_on and (names is None or name in names):
                    self.need(other, name)
        elif found not in self.used.setdefault(file, set()):
            self.used[file].add(found)
            self.pending.append((file, found))

    def follow(self, file, name):
        specs = self.specs(file)
        text = specs.texts[name]
        words, own = words_of(text), set(PART.findall(text))
        for word in words:
            if word in specs.texts or word in specs.owners and word not in own:
                self.need(file, word)
        for other, names, alias, _ in specs.uses:
            if alias:
                names = [word.split(".")[1] for word in words if word.startswith(f"{alias}.")]
            for taken_name in names or []:
                if alias or taken_name in words or taken_name.startswith("◌"):
                    self.need(other, taken_name)


def listed():
    """Returns the files of definitions that READING lists, each with the names that its row says are used, if it says any."""
    found = {}
    for row in re.findall(r"^\|(.*?)\|", text_of("docs", "READING.md"), re.M):
        folder = last = None
        for before, span in re.findall(r"([^`]*)`([^`]*)`", row):
            if "/specs/" in span:
                folder, last = os.path.dirname(span), span
                found.setdefault(span, set())
            elif folder and ":" in before or last and found.get(last):
                found[last].add(span)
            elif folder and span[0].isupper():
                last = f"{folder}/{span}"
                found.setdefault(last, set())
    return found


def main():
    contract, rows = Contract(), listed()
    if sys.argv[1:] == ["--list"]:
        for file in sorted(contract.used):
            names, used = list(contract.specs(file).texts), contract.used[file]
            print(f"{file}: {len(used)} of {len(names)}", *[name for name in names if name not in used])
        return 0
    findings = [f"{file} is listed and not used" for file in rows if file not in contract.used]
    findings += [f"{file} is used and not listed" for file in contract.used if file not in rows]
    for file, names in rows.items():
        specs, used = contract.specs(file), contract.used.get(file, ())
        findings += [f"{file}: {name} isn't used" for name in names if specs.definition(name) not in used]
    print(*sorted(findings), f"{len(contract.used)} files are used", sep="\n")
    return 1 if findings else 0


sys.exit(main())
