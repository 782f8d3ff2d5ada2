"""Packets of the worst kind, of which the definitions take long: those that mention, clash, are many or have to be linked.

Each function takes a size in bytes, which the last string fills as far as it can, and returns the reading program and the strings.
"""
import random

from cases import Cases
from packets import *

DEFINITIONS = Cases()
LEAVES = 3_700      # leaves of a type of nearly 4,000 parts, to which a function's two can still be added
ROOM = 200          # bytes that are left for what stands around a part that is repeated

READ = """IO.print_string (
  try (let v : {0} = unmarshal (IO.receive ()) as {0} in "accepted\\n")
  with Unmarshal_failure (w : string) -> "Unmarshal_failure " ^ w ^ "\\n" | Resolve_failure (w : string) -> "Resolve_failure " ^ w ^ "\\n" end)"""


def reader(types, definitions=""):
    """Returns a program that reads a string for each type, and prints how that went, a line each."""
    return definitions + ";\n".join(READ.format(it) for it in types) + "\n"


def read_as_int(*definitions):
    return reader(["int"]), [packet_of_int(definitions)]


def field_module(body, fields=(), name="B"):
    """Returns a module with these fields and a last one, a function from unit with that body."""
    return module(name, fields=[*fields, ("f", UNIT_TO_UNIT, function(UNIT, body))])


def binding(variable_type, body):
    """Returns a term that binds a variable of the type in its body, and has type unit.

    The function that binds it is matched and not applied, so that no type is larger than its own.
    """
    return ignored(function(variable_type, body))


def calls_of(variable_type, size):
    """Returns a term with calls `x y` that fill the size, y of the type and x from it to unit."""
    call = applied(variable(1), variable(0))
    count = (size - 2 * len(variable_type) - ROOM) // len(call)
    return binding(function_type(variable_type, UNIT), binding(variable_type, repeated(call, count)))


def values_of(leaf, count, most):
    """Returns values whose types have so many leaves together, at most `most` each; fewer than 16 are left out."""
    full, rest = divmod(count, most)
    sizes = [most] * full + [rest] * (rest >= 16)
    return [(name, wide(leaf, it)) for name, it in zip(lower_names(MOST_ITEMS), sizes)]


# ---- mentions of types --------------------------------------------------------------------------


@DEFINITIONS.case("Resolve_failure I")
def mentions(size):
    """modules, and an import whose values mention the last one's abstract type"""
    small = small_modules(min(65_000, size // 2 // 15))
    last = module("ZZZ", [("t", None)], (), [("t", INT)])
    leaf = abstract(name_of(last), "t")
    count = (size - 15 * len(small) - ROOM) // (len(leaf) + 1)
    return read_as_int(*small, last, imported("I", (), values_of(leaf, count, 3_840)))


@DEFINITIONS.case("Unmarshal_failure definition")
def mentions_unknown(size):
    """equal modules with 1,024 abstract types, and a field that mentions a type that none of them has"""
    names = lower_names(MOST_ITEMS)
    one = module("A", [(name, None) for name in names], (), [(name, INT) for name in names])
    count = max(1, size // 2 // len(one))
    # of an application both sides are looked at, also where the first fails
    body = b"\x07" + list_type(abstract(name_of(one), "zzz"))
    while 2 * len(body) + 1 < size - count * len(one) - ROOM:
        body = applied(body, body)
    return read_as_int(*[one] * count, field_module(body))


@DEFINITIONS.case("Resolve_failure I")
def own_types(size):
    """imports with 1,024 abstract types whose values mention the last of them"""
    names = lower_names(MOST_ITEMS)
    types, leaf = [(name, None) for name in names], own_abstract(names[-1])
    definitions, left = [], size - 100
    while left > 12_000:
        count = (left - len(signature(types, ())) - 60) // (len(leaf) + 1)
        one = imported("I", types, values_of(leaf, count, 3_800), exactly(bytes(32)))
        definitions.append(one)
        left -= len(one)
    return read_as_int(*definitions)


@DEFINITIONS.case("accepted")
def inside(size):
    """a module with 1,024 types whose fields are compared with values of the last of them"""
    names = lower_names(MOST_ITEMS)
    types, structs = [(name, None) for name in names], [(name, UNIT) for name in names]
    # for each leaf 4 bytes of the mention, 1 of the field's type and 1 of its part, and what stands around them
    count = (size - len(module("M", types, (), structs)) - ROOM) * 2 // 13
    values = values_of(own_abstract(names[-1]), count, 3_800)
    units = values_of(UNIT, count, 3_800)
    fields = [(name, spelled, term_of_units(spelled)) for name, spelled in units]
    return read_as_int(module("M", types, values, structs, fields))


def term_of_units(spelled):
    """Returns a term of the type: tuples of units are spelled as their types are."""
    return spelled


@DEFINITIONS.case("Resolve_failure I")
def distinct(size):
    """imports of 1,024 values each"""
    one = imported("I", (), [(name, INT) for name in lower_names(MOST_ITEMS)])
    return read_as_int(*[one] * (size // len(one)))


@DEFINITIONS.case("Resolve_failure I")
def types_by_chance(size):
    """an import whose values have types of ints and units by chance"""
    chance = random.Random(1)
    names, values, left = iter(lower_names(MOST_ITEMS)), [], size - 100
    while left > 4_300:
        values.append((next(names), wide_of([chance.choice((INT, UNIT)) for _ in range(3_600)])))
        left -= len(values[-1][1]) + 3
    return read_as_int(imported("I", (), values))


# ---- fields whose types are large ---------------------------------------------------------------


@DEFINITIONS.case("accepted")
def variables(size):
    """a field with variables of a type of 4,000 parts"""
    return read_as_int(field_module(calls_of(wide(UNIT, LEAVES), size)))


@DEFINITIONS.case("accepted")
def variables_named(size):
    """the same, of a type of abstract types, 1,000 at the most"""
    owner = module("A", [("t", None)], (), [("t", INT)])
    large = wide(abstract(name_of(owner), "t"), min(1_000, size // 200))
    return read_as_int(owner, field_module(calls_of(large, size - len(owner))))


@DEFINITIONS.case("accepted")
def own_fields(size):
    """a field that uses own fields of a type of 4,000 parts"""
    large = wide(UNIT, LEAVES)
    fields = [("a", function_type(large, UNIT), function(large, UNIT_TERM)), ("b", large, term_of_units(large))]
    call = applied(own_field(0), own_field(1))
    count = (size - 4 * len(large) - 2 * ROOM) // len(call)
    return read_as_int(field_module(repeated(call, count), fields))


@DEFINITIONS.case("accepted")
def references(size):
    """a field with references to values of a type of 4,000 parts"""
    large = wide(UNIT, LEAVES)
    whole = function_type(large, UNIT)
    fields = [("a", whole, function(large, UNIT_TERM)), ("b", large, term_of_units(large))]
    call = applied(reference(0, "a"), reference(0, "b"))
    count = (size - 6 * len(large) - 2 * ROOM) // len(call)
    return read_as_int(module("A", (), [("a", whole), ("b", large)], (), fields), field_module(repeated(call, count)))


@DEFINITIONS.case("accepted")
def nested_some(size):
    """`Some (Some .. x)` of a variable of a type of 3,900 parts"""
    large = wide(UNIT, 3_600)
    term = variable(0)
    for _ in range(90):
        term = some(term)
    one = ignored(term)
    count = (size - 2 * len(large) - ROOM) // len(one)
    return read_as_int(field_module(binding(large, repeated(one, count))))


@DEFINITIONS.case("Unmarshal_failure definition")
def deep_variables(size):
    """variables of type unit behind 240 newer ones"""
    deep = 240
    body = repeated(variable(deep), (size - 3_000) // 3)
    for _ in range(deep - 1):
        body = binding(UNIT, body)
    # the outermost gives an int, so that the field hasn't its type
    return read_as_int(field_module(ignored(function(UNIT, body), int_term(0))))


@DEFINITIONS.case("accepted")
def field_units(size):
    """a field with a sequence of units"""
    return read_as_int(field_module(repeated(UNIT_TERM, size - 100)))


# ---- many definitions ---------------------------------------------------------------------------


@DEFINITIONS.case("accepted")
def equal_modules(size):
    """equal modules, each compared with the first"""
    one = module("A")
    return read_as_int(*[one] * min(MOST_ENTRIES, size // len(one)))


def filling(size):
    """Returns as many modules of the shortest form as there may be, or as the size takes."""
    return small_modules(min(MOST_ENTRIES, (size - 30) // 15))


@DEFINITIONS.case("accepted")
def modules(size):
    """modules of the shortest form"""
    return read_as_int(*filling(size))


@DEFINITIONS.case("accepted")
def small_on_many(size):
    """20 times one int, where modules of the shortest form stand that fill the size"""
    return reader(["int"] * 21), [packet_of_int(filling(size))] + [packet_of_int([])] * 20


@DEFINITIONS.case("accepted")
def small_on_large(size):
    """20 times one int, where 16 modules stand that fill the size each"""
    body = function(UNIT, repeated(UNIT_TERM, size - ROOM))
    large = [module("A", fields=[("f", UNIT_TO_UNIT, body), ("k", INT, int_term(it))]) for it in range(16)]
    return reader(["int"] * 36), [packet_of_int([it]) for it in large] + [packet_of_int([])] * 20


# ---- links --------------------------------------------------------------------------------------


def behind_all(size, atoms):
    """Returns imports by version behind as many entries as there may be."""
    one = [imported(upper_name(it), by=(HERE_ALREADY,) * atoms) for it in range(MOST_ENTRIES)]
    count = min(MOST_ENTRIES, (size - 30) // len(one[0]))
    return reader(["int"] * 2), [packet_of_int(small_modules(MOST_ENTRIES)), packet_of_int(one[:count])]


@DEFINITIONS.case("Unmarshal_failure full")
def full(size):
    """imports by version, where 65,535 entries stand"""
    return behind_all(size, 1)


@DEFINITIONS.case("Unmarshal_failure full")
def full_atoms(size):
    """the same with resolvespecs of 16 atoms"""
    return behind_all(size, 16)


@DEFINITIONS.case("accepted")
def exact_arrived(size):
    """imports by exact name beside 60,000 arrived modules of one external name"""
    arrived = [module("A", version=numbered(it)) for it in range(60_000)]
    each = (LONGEST - 40) // len(arrived[0])
    packets = [packet_of_int(arrived[at : at + each]) for at in range(0, len(arrived), each)]
    one = imported("A", constraint=exactly(name_of(arrived[0])))
    count = min(MOST_ENTRIES, (size - 30) // len(one))
    return reader(["int"] * (len(packets) + 1)), packets + [packet_of_int([one] * count)]


@DEFINITIONS.case("Resolve_failure M")
def by_version(size):
    """imports of 16 values beside 1,900 own modules that fail at the last"""
    *names, last = lower_names(16)
    specs = " ".join(f"val {name} : int" for name in names) + f" val {last} : bool"
    fields = " ".join(f"val {name} : int = 0" for name in names) + f" val {last} : bool = true"
    own = "".join(f"module M : sig {specs} end version {it} = struct {fields} end\n" for it in range(1_900))
    one = imported("M", (), [(name, INT) for name in [*names, last]])
    count = min(MOST_ENTRIES, (size - 30) // len(one))
    return reader(["int"], own), [packet_of_int([one] * count)]
