"""Packets of the worst kind, of which the value takes long, or its code.

Each function takes a size in bytes, which the string fills as far as it can, and returns the reading program and the strings.
"""
from cases import Cases
from packets import *
from worst_definitions import LEAVES, ROOM, binding, calls_of, field_module, read_as_int, reader, term_of_units

VALUES = Cases()


def read_function(body, *definitions, home=0):
    """Returns a function from unit with that body, read as such."""
    return reader(["unit -> unit"]), [packet(definitions, UNIT_TO_UNIT, unit_function(body, home))]


# ---- lists --------------------------------------------------------------------------------------


@VALUES.case("Unmarshal_failure format")
def format_units(size):
    """a list of units whose last byte fits nothing"""
    return reader(["unit list"]), [packet([], list_type(UNIT), almost_units(size - 40, b"\xff"))]


@VALUES.case("Unmarshal_failure value")
def units(size):
    """a list of units whose last is a bool"""
    return reader(["unit list"]), [packet([], list_type(UNIT), almost_units(size - 40, b"\x02\x00"))]


def almost_units(count, last):
    return b"\x07" + u32(count) + UNIT_TERM * (count - 1) + last


@VALUES.case("accepted")
def ints(size):
    """a list of at most 100,000 ints"""
    numbers = range(min(100_000, (size - 40) // 9))
    return reader(["int list"]), [packet([], list_type(INT), list_value(list(map(int_term, numbers))))]


@VALUES.case("accepted")
def strings(size):
    """a list of strings of one byte"""
    return reader(["string list"]), [packet([], list_type(STRING), alike(b"\x03" + u32(1) + b"a", (size - 40) // 6))]


@VALUES.case("accepted")
def functions(size):
    """a list of functions"""
    one = unit_function(UNIT_TERM)
    value = alike(one, (size - 60) // len(one))
    return reader(["(unit -> unit) list"]), [packet([], list_type(UNIT_TO_UNIT), value)]


# ---- functions ----------------------------------------------------------------------------------


@VALUES.case("accepted")
def value_variables(size):
    """a function with variables of a type of 4,000 parts"""
    return read_function(calls_of(wide(UNIT, LEAVES), size))


@VALUES.case("accepted")
def abstract_units(size):
    """a captured list of units, at the abstract type of the last of many modules"""
    small = small_modules(max(1, size // 2 // 15))
    last = module("ZZZ", [("t", None)], (), [("t", UNIT)])
    return captured_units(size, [*small, last])


@VALUES.case("accepted")
def abstract_chain(size):
    """a captured list of units, at an abstract type that is another one that is another one .."""
    owners = [module("A", [("t", None)], (), [("t", UNIT)])]
    for _ in range(size // 2 // 53 - 1):
        owners.append(module("A", [("t", None)], (), [("t", abstract(name_of(owners[-1]), "t"))]))
    return captured_units(size, owners)


def captured_units(size, owners):
    """Returns a function with a captured list of units, at the abstract type of the last module."""
    value = alike(UNIT_TERM, size - sum(map(len, owners)) - ROOM)
    return read_function(ignored(captured(list_type(abstract(name_of(owners[-1]), "t")), value)), *owners)


@VALUES.case("accepted")
def home_types(size):
    """a function of a module that mentions the module's own type of 4,000 parts"""
    owner = module("A", [("t", None)], (), [("t", wide(UNIT, LEAVES))])
    one = binding(abstract(name_of(owner), "t"), UNIT_TERM)
    return read_function(repeated(one, (size - len(owner) - ROOM) // len(one)), owner, home=1)


@VALUES.case("accepted")
def many_homes(size):
    """functions whose body is an own field of a type of 4,000 parts, at that type"""
    large = wide(UNIT, LEAVES)
    owner = module("A", fields=[("b", large, term_of_units(large))])
    one = unit_function(own_field(0), 1)
    value = alike(one, (size - len(owner) - len(large) - ROOM) // len(one))
    read = reader([f"(unit -> {written_wide(LEAVES)}) list"])
    return read, [packet([owner], list_type(function_type(UNIT, large)), value)]


def written_wide(leaves):
    """Writes the type `wide(UNIT, leaves)` as a program has it."""
    row = ["unit"] * leaves
    while len(row) > 1:
        groups = [row[at : at + 16] for at in range(0, len(row), 16)]
        row = [f"({' * '.join(it)})" if len(it) > 1 else it[0] for it in groups]
    return row[0]


# ---- code ---------------------------------------------------------------------------------------


def within_arguments(size):
    """Returns functions within 100 functions of an argument of some 200 parts."""
    large, deep = wide(UNIT, 180), 100
    one = applied(function(UNIT, UNIT_TERM), UNIT_TERM)
    body = repeated(one, max(1, (size - deep * (len(large) + 8) - ROOM) // len(one)))
    for _ in range(deep):
        body = binding(large, body)
    return body


def within_functions(size):
    """Returns 240 functions, one in another, around a sequence of units."""
    deep = 240
    body = repeated(UNIT_TERM, size - deep * 8 - ROOM)
    for _ in range(deep):
        body = applied(function(UNIT, body), UNIT_TERM)
    return body


@VALUES.case("accepted")
def contexts(size):
    """functions within 100 functions of an argument of 200 parts"""
    return read_function(within_arguments(size))


@VALUES.case("accepted")
def field_contexts(size):
    """the same in a field of a module, read as an int"""
    return read_as_int(field_module(within_arguments(size)))


@VALUES.case("accepted")
def lambdas(size):
    """240 functions, one in another, around a sequence of units"""
    return read_function(within_functions(size))


@VALUES.case("accepted")
def field_lambdas(size):
    """the same in a field of a module, read as an int"""
    return read_as_int(field_module(within_functions(size)))
