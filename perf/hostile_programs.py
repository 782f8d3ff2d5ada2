"""The largest programs for each pass behind the parser: scopes, typing, signatures, links, names, code, and shelves.

Each function returns a call, as those of the texts do.
"""
from cases import Cases
from hostile_texts import GIGABYTE, filled, joined, run, tuples
from packets import LONGEST, MOST_ITEMS, lower_names, upper_name

PROGRAMS = Cases()


def checked(text):
    return {"a.ac": text}, ["check", "a.ac"]


def large_type(times):
    """Returns a module with a type `t` that doubles so often: 11 times give 4,095 parts, 10 times 2,047, and 8 times 511."""
    types = "type t0=unit " + "".join(f"type t{it + 1}=t{it}*t{it} " for it in range(times)) + f"type t=t{times} "
    values = "val v0:t0=() " + "".join(f"val v{it + 1}:t{it + 1}=(v{it},v{it}) " for it in range(times)) + f"val v:t=v{times} "
    return f"module T:sig {types}val v:t end=struct {types}{values}end "


def unused(term):
    """Returns a match of the term that gives a unit."""
    return f"match {term} with _->()end"


def within(binder, body, times=1):
    """Returns a body within functions, each of which is matched and not applied, so that no type is larger than its own."""
    return f"match {binder}->" * times + body + " with _->()end" * times


# ---- counts at their limit ----------------------------------------------------------------------


@PROGRAMS.case("accepted")
def units():
    """one sequence of units"""
    return run(filled("", "();", "()"))


@PROGRAMS.case("accepted")
def arms():
    """matches of 1,024 arms"""
    one = "match 1 with 1->()" + "|1->()" * 1_023 + " end"
    return run(filled("", one + ";", one))


@PROGRAMS.case("accepted")
def long_arms():
    """a match of 1,024 arms with a string each"""
    arms = "|".join(f'"{it:04}{"a" * 1_000}"->()' for it in range(1_023))
    return run(f'match "" with {arms}|_->() end')


@PROGRAMS.case("accepted")
def handlers():
    """tries of 1,024 arms"""
    one = "try () with Not_found->()" + "|Not_found->()" * 1_023 + " end"
    return run(filled("", one + ";", one))


@PROGRAMS.case("accepted")
def marks():
    """4,096 marks"""
    return run("".join(f'mark "{it:04}{"a" * 240}"' for it in range(4_096)) + "()")


@PROGRAMS.case("accepted")
def equal_modules():
    """4,096 equal modules"""
    return run("module M:sig end=struct end " * 4_096 + "()")


@PROGRAMS.case("accepted")
def modules():
    """4,096 modules that fill the text, each of which refers to the one before"""
    first = "module M:sig val k:int end=struct val k:int=1 end "
    one = f"module M:sig val k:int end=struct val k:int=M.k {' ' * 180}end "
    return run(first + one * 4_095 + "IO.print_int M.k")


@PROGRAMS.case("accepted")
def high_patterns():
    """arms with patterns of height 490"""
    arm = "|" + "_::" * 489 + "_->()"
    return run(filled("match([]:int list)with ", arm, "|_->()end"))


@PROGRAMS.case("accepted")
def variables():
    """62,000 variables in scope, of which the first is asked for as often as fits"""
    names = lower_names(62_000, 4)
    each = [names[at : at + 3_100] for at in range(0, len(names), 3_100)]
    matches = [f"match raise Not_found:T.t with {tuples([f'({it}:unit)' for it in some])}->" for some in each]
    large = tuples(["unit"] * 3_100, "*")
    owner = f"module T:sig type t={large} end=struct type t={large} end "
    return checked(filled(owner + "".join(matches), f"{names[0]};", "()" + " end" * len(matches)))


# ---- large types --------------------------------------------------------------------------------


@PROGRAMS.case("accepted")
def large_mentions():
    """a type of 4,095 parts, mentioned as often as fits"""
    return checked(filled(large_type(11), unused("(None:T.t option)") + ";", "()"))


@PROGRAMS.case("accepted")
def large_fields():
    """the same in the field of a module, which the text of its name spells"""
    module = "module M:sig end=struct val f:unit->unit=fun(u:unit)->("
    return checked(filled(large_type(11) + module, unused("(None:T.t option)") + ";", "())end ()"))


@PROGRAMS.case("accepted")
def large_values():
    """imports of 1,024 values of a type of 4,095 parts"""
    values = "".join(f"val {it}:T.t " for it in lower_names(MOST_ITEMS))
    fields = "".join(f"val {it}:T.t=T.v " for it in lower_names(MOST_ITEMS))
    owners = f"{large_type(11)}module M:sig {values}end=struct {fields}end "
    return checked(filled(owners, f"import M:sig {values}end version * by Static_Link ", "()"))


@PROGRAMS.case("accepted")
def large_arguments():
    """a function and a variable of types of 2,047 parts, applied as often as fits"""
    return checked(large_type(10) + within("fun(f:T.t->unit)", within("fun(x:T.t)", filled("(", "f x;", "())", LONGEST - 1_000))))


@PROGRAMS.case("accepted")
def large_branches():
    """a variable of a type of 2,047 parts, in both branches of conditionals"""
    branches = unused("if true then x else x") + ";"
    return checked(large_type(10) + within("fun(x:T.t)", filled("(", branches, "())", LONGEST - 1_000)))


@PROGRAMS.case("accepted")
def nested_some():
    """`Some (Some .. x)` of a variable of a type of 2,047 parts"""
    term = unused("Some(" * 80 + "x" + ")" * 80) + ";"
    return checked(large_type(10) + within("fun(x:T.t)", filled("(", term, "())", LONGEST - 1_000)))


# ---- signatures ---------------------------------------------------------------------------------


@PROGRAMS.case("accepted")
def fields():
    """modules of 1,024 types and 1,024 values, whose structs have them the other way round"""
    names = lower_names(MOST_ITEMS)
    specs = "".join(f"type {it} " for it in names) + "".join(f"val {it}:int " for it in names)
    items = "".join(f"type {it}=int " for it in names[::-1]) + "".join(f"val {it}:int=0 " for it in names[::-1])
    return run(filled("", f"module M:sig {specs}end=struct {items}end ", "()"))


@PROGRAMS.case("accepted")
def chain_of_fields():
    """65,000 fields, each of which is the one before"""
    names, texts, before = lower_names(MOST_ITEMS), [], "0"
    for number in range(63):
        values = "".join(f"val {it}:int={last} " for it, last in zip(names, [before, *names]))
        texts.append(f"module {upper_name(number, 2)}:sig val {names[-1]}:int end=struct {values}end ")
        before = f"{upper_name(number, 2)}.{names[-1]}"
    return run(f"{''.join(texts)}IO.print_int {before}")


@PROGRAMS.case("accepted")
def likespecs():
    """imports of 1,024 types, whose likespecs have them the other way round"""
    names = lower_names(MOST_ITEMS)
    types = "".join(f"type {it} " for it in names)
    likes = "".join(f"type {it}=int " for it in names[::-1])
    module = f"module M:sig {types}end=struct {likes}end "
    return run(filled(module, f"import M:sig {types}end version * like struct {likes}end by Static_Link ", "()"))


# ---- links --------------------------------------------------------------------------------------


def linked(count, specs, by):
    """Returns imports of so many values beside so many modules of their name, of which the first alone fits."""
    *names, last = lower_names(specs)
    values = "".join(f"val {it}:int " for it in names)
    fields = "".join(f"val {it}:int=0 " for it in names)
    fits = f"module M:sig {values}val {last}:int end=struct {fields}val {last}:int=0 end "
    fails = f"module M:sig {values}val {last}:bool end=struct {fields}val {last}:bool=true end "
    wants = f"import M:sig {values}val {last}:int end version * by {by} "
    text = fits + fails * count
    return run(text + wants * min((LONGEST - len(text) - 2) // len(wants), 4_095 - count) + "()")


@PROGRAMS.case("accepted")
def links_of_one():
    """2,047 imports of one value beside 2,047 modules that fail"""
    return linked(2_047, 1, "Static_Link")


@PROGRAMS.case("accepted")
def links_of_sixteen():
    """imports of 16 values beside 1,200 modules that fail at the last"""
    return linked(1_200, 16, "Static_Link")


@PROGRAMS.case("accepted")
def links_of_many():
    """imports of 1,024 values beside 22 modules that fail at the last"""
    return linked(22, MOST_ITEMS, "Static_Link")


@PROGRAMS.case("unresolved at 2047")
def links_that_fail():
    """an import of 16 atoms beside 2,047 modules that fail, which nothing fits"""
    module = f"module M:sig val a:bool {' ' * 440}end=struct val a:bool=true end "
    return run(module * 2_047 + f"import M:sig val a:int end version * by {','.join(['Static_Link', 'Here_Already'] * 8)} ()")


# ---- names and code -----------------------------------------------------------------------------


@PROGRAMS.case("accepted")
def names():
    """the names of modules of 1,024 types and 1,024 values"""
    files, _ = fields()
    return files, ["names", "a.ac"]


@PROGRAMS.case("accepted")
def code():
    """the code of a sequence of units"""
    files, _ = units()
    return files, ["code", "a.ac"]


@PROGRAMS.case("accepted")
def large_listing():
    """the code of `unmarshal` at a type of 4,095 parts, as often as fits"""
    return {"a.ac": filled(large_type(11), unused('unmarshal "" as T.t') + ";", "()")}, ["code", "a.ac"]


@PROGRAMS.case("accepted")
def contexts():
    """functions within 98 functions of an argument of 511 parts"""
    return run(large_type(8) + within("fun(x:T.t)", filled("(", "(fun(u:unit)->())();", "())", LONGEST - 4_000), 98))


@PROGRAMS.case("accepted")
def lambdas():
    """functions, one in another, around a sequence of units"""
    return run(filled("(fun(u:unit)->" * 190, "();", "()" + ")()" * 190))


# ---- shelves ------------------------------------------------------------------------------------


def shelved(texts, listed):
    """Returns a call of a program with these texts on its shelf, in these lines."""
    wants = 'import M:sig val k:int end version * by "u0" IO.print_int M.k'
    return {"a.ac": wants, "l": listed, **texts}, ["run", "a.ac", "--shelf", "l"]


@PROGRAMS.case("accepted")
def shelf():
    """256 modules of 4 KB"""
    texts = {}
    for number in range(256):
        fields = "".join(f"val {it}:int=0 " for it in lower_names(290))
        texts[f"m{number}"] = f"module M:sig val k:int end=struct {fields}val k:int={number} end"
    return shelved(texts, "".join(f"u{it} m{it}\n" for it in range(256)))


@PROGRAMS.case("accepted")
def large_shelf():
    """256 times one module of 1 MiB"""
    fields = [f"val {it}:string=\"{'a' * 1_000}\" " for it in lower_names(1_020)]
    text = joined("module M:sig val k:int end=struct ", fields, "val k:int=1 end")
    return shelved({"m": text}, "".join(f"u{it} m\n" for it in range(256)))


@PROGRAMS.case("accepted")
def empty_lines():
    """a list of 65,522 empty lines and one other"""
    return shelved({"m": "module M:sig val k:int end=struct val k:int=1 end"}, "\n" * 65_500 + "u0 m\n")


@PROGRAMS.case("shelf: line 1")
def list_far_too_long():
    """a list of 1 GB, without a line feed"""
    return shelved({}, GIGABYTE)


@PROGRAMS.case("shelf: line 65537")
def lines_too_many():
    """a list of a byte too many"""
    return shelved({}, "\n" * 65_537)
