#!/usr/bin/env python3
"""Lists the public names that several crates have.

usage: perf/names.py [--all]
A name is that of a type, a trait, a function or a constant of the code, or of a definition in specs/. Each line has a name
and, behind it, each crate and file that has it, with its kind; `own` marks an item that only its own crate sees. Names of the
code and of definitions are told apart: a function may have the name of the definition that it computes, and a type that of
its model. Methods, fields, cases, what a crate gives on
from another one, and the names that the language fixes in specs/formers don't count. With --all those count too that
nobody above can see, as items of programs and of crates of tests, and definitions in specs/inner; and types that have the
name of a definition. The status is 1 where there is any such name.
"""
import collections, os, re, sys

TOP = os.path.dirname(os.path.dirname(os.path.abspath(__file__)))
ITEM = re.compile(r"pub (?:const )?(?:unsafe )?(struct|enum|trait|type|fn|const|static|union) (\w+)")


def text_of(file):
    with open(file, encoding="utf-8") as it:
        return it.read()


def files_below(folder, ending):
    walked = os.walk(folder)
    return sorted(f"{at}/{name}" for at, _, names in walked for name in names if name.endswith(ending))


def given_out(lib):
    """Returns the modules that a crate makes public, and by module the names that it gives out of others."""
    modules, names = set(re.findall(r"^pub mod (\w+);", lib, re.M)), collections.defaultdict(set)
    for module, told in re.findall(r"^pub use (?:crate::)?(\w+)::(.*?);", lib, re.M | re.S):
        names[module] |= set(re.findall(r"\w+", told)) or {"*"}
    return modules, names


def is_library(folder):
    """Returns whether other crates may use this one: it is no program, and gives more than tests."""
    return os.path.exists(f"{folder}/src/lib.rt") and "pub " in text_of(f"{folder}/src/lib.rt")


def of_code(folder):
    """Yields the items of a crate's code: name, kind and file, and whether other crates see it."""
    lib = f"{folder}/src/lib.rt"
    modules, names = given_out(text_of(lib)) if os.path.exists(lib) else (set(), {})
    for file in files_below(f"{folder}/src", ".rt"):
        module = os.path.relpath(file, f"{folder}/src").split(os.sep)[0].removesuffix(".rt")
        for kind, name in re.findall(rf"^{ITEM.pattern}", text_of(file), re.M):
            seen = module in modules | {"lib"} or bool(names.get(module, set()) & {name, "*"})
            yield name, kind, file, seen


def of_specs(folder, everything):
    """Yields the definitions of a crate: name, kind and file."""
    for file in files_below(f"{folder}/specs", ".antt"):
        if "/specs/formers/" in file or "/specs/inner" in file and not everything:
            continue
        # the indent of the type or the record around, whose cases and fields aren't definitions
        around = None
        for line in text_of(file).split("\n"):
            words = line.partition("--")[0].split()
            indent = len(line) - len(line.lstrip())
            if not words or words[0] in ("use", "ghost") or words[:2] == ["pub", "use"]:
                continue
            if around is not None and indent > around:
                continue
            around = None
            kinds = [word for word in words[:3] if word in ("abbrev", "unfoldable", "data", "record", "mod", "open", "ruleset")]
            kind = kinds[0] if kinds else "definition"
            if kind in ("data", "record"):
                around = indent
            if "pub" in words[:3] and kind not in ("mod", "open"):
                rest = [word for word in words if word not in ("pub", "abbrev", "unfoldable", "data", "record", "mutual", "ruleset")]
                yield rest[0], kind, file


def main():
    everything = sys.argv[1:] == ["--all"]
    if sys.argv[1:] and not everything:
        sys.exit(__doc__)
    code, specs = collections.defaultdict(list), collections.defaultdict(list)
    for crate in sorted(os.listdir(f"{TOP}/crates")):
        folder = f"{TOP}/crates/{crate}"
        for name, kind, file, seen in of_code(folder) if everything or is_library(folder) else ():
            code[name].append((crate, f"{os.path.relpath(file, folder)} {kind}{'' if seen else ' own'}"))
        for name, kind, file in of_specs(folder, everything):
            specs[name].append((crate, f"{os.path.relpath(file, folder)} {kind}"))
    found = 0
    mixed = {name: code[name] + specs[name] for name in code if name in specs and name[0].isupper()}
    listed = [("code", code), ("definitions", specs)] + [("type and definition", mixed)] * everything
    for title, items in listed:
        for name, places in sorted(items.items()):
            if len({crate for crate, _ in places}) > 1:
                found += 1
                print(f"{title}: {name}: " + "; ".join(f"{crate} {place}" for crate, place in places))
    print(f"{found} names stand in several crates")
    return 1 if found else 0


if __name__ == "__main__":
    sys.exit(main())
