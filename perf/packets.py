"""Spells packets, the strings that `marshal` gives: types, terms, packed values, definitions. docs/FORMATS.md has the format.

It is read by the scripts beside it, and runs nothing by itself.
"""
import hashlib

LONGEST = 1_048_576     # bytes of a packet, of a frame and of a text
MOST_PARTS = 4_096      # parts of a type
MOST_ENTRIES = 65_535   # definitions of a program, with those that arrived
MOST_ITEMS = 1_024      # types, and values, of one list

# ---- numbers and words --------------------------------------------------------------------------


def u16(number):
    return number.to_bytes(2, "big")


def u32(number):
    return number.to_bytes(4, "big")


def word(text):
    spelled = text.encode()
    return bytes([len(spelled)]) + spelled


# ---- types --------------------------------------------------------------------------------------

INT, BOOL, STRING, UNIT, EXN = (bytes([tag]) for tag in range(1, 6))


def tuple_of(parts):
    """Spells a tuple of 2 to 16 parts. A type, a term and a packed value of tuples are spelled alike."""
    assert 2 <= len(parts) <= 16
    return bytes([6, len(parts)]) + b"".join(parts)


def list_type(item):
    return b"\x07" + item


def function_type(argument, result):
    return b"\x09" + argument + result


def abstract(name, type_name):
    """Spells the abstract type of the definition with that name of 32 bytes."""
    return b"\x0a" + name + word(type_name)


def own_abstract(type_name):
    """Spells an abstract type of the signature in which it stands."""
    return b"\x0b" + word(type_name)


UNIT_TO_UNIT = function_type(UNIT, UNIT)


def wide_of(leaves):
    """Returns tuples of tuples with these leaves, and no other parts."""
    row = leaves
    while len(row) > 1:
        groups = [row[at : at + 16] for at in range(0, len(row), 16)]
        row = [tuple_of(it) if len(it) > 1 else it[0] for it in groups]
    return row[0]


def wide(leaf, leaves):
    return wide_of([leaf] * leaves)


# ---- terms --------------------------------------------------------------------------------------

UNIT_TERM = b"\x04"


def int_term(number):
    return b"\x01" + number.to_bytes(8, "big", signed=True)


def some(term):
    return b"\x09" + term


def cons(first, rest):
    return b"\x0a" + first + rest


def variable(number):
    return b"\x0b" + u16(number)


def own_field(number):
    return b"\x0c" + u16(number)


def reference(definition, field):
    return b"\x0d" + u16(definition) + word(field)


def function(argument, body):
    return b"\x0e" + argument + body


def applied(called, argument):
    return b"\x10" + called + argument


def let(bound_type, bound, body):
    return b"\x11" + bound_type + bound + body


def conditional(test, then, otherwise):
    return b"\x12" + test + then + otherwise


def repeated(part, count, last=UNIT_TERM):
    """Spells a sequence with so many times one part, and a last one."""
    assert count >= 1
    return b"\x13" + u32(count + 1) + part * count + last


def match(term, *arms):
    return b"\x14" + term + u16(len(arms)) + b"".join(pattern + body for pattern, body in arms)


def handled(term, result):
    """Spells a try that handles each exception by the result."""
    return b"\x15" + term + u16(1) + ANYTHING + result


def recursive(argument, result, body):
    return b"\x0f" + argument + result + body


def raised(result_type, term):
    return b"\x16" + result_type + term


def primitive(number, *arguments):
    """Spells an operator, or a primitive that is applied: 0 adds and 9 negates."""
    return b"\x17" + bytes([number]) + b"".join(arguments)


def marshalled(value_type, mark, term):
    return b"\x18" + value_type + mark + term


def unmarshalled(value_type, term):
    return b"\x19" + value_type + term


def captured(value_type, value):
    """Spells a packed value that a function has captured."""
    return b"\x1a" + value_type + value


def ignored(term, result=UNIT_TERM):
    """Spells a match that looks at no part of the term, and gives the result."""
    return match(term, (ANYTHING, result))


ANYTHING = b"\x01"


def cons_pattern(first, rest):
    return b"\x09" + first + rest


# ---- packed values ------------------------------------------------------------------------------


def list_value(values):
    return b"\x07" + u32(len(values)) + b"".join(values)


def alike(value, count):
    """Spells a list with so many times one value."""
    return b"\x07" + u32(count) + value * count


def function_value(function_term, home=0):
    """Spells a function of the main program, or, with a home above 0, of the definition of the number below it."""
    return b"\x0a" + u16(home) + function_term


def unit_function(body, home=0):
    return function_value(function(UNIT, body), home)


# ---- definitions --------------------------------------------------------------------------------

MYNAME = b"\x01\x02"        # the version of a module that writes none
ANY_VERSION = b"\x01\x00\x01"   # the constraint `*`
HERE_ALREADY = b"\x02"


def numbered(number):
    """Spells the version `number.myname`."""
    return b"\x02\x01" + u32(number) + b"\x02"


def exactly(name):
    """Spells the constraint on the name of 32 bytes."""
    return b"\x02" + name


def signature(types, values):
    """Spells types, (word, manifest or None), and values, (word, type)."""
    spelled = [word(name) + (b"\x00" if manifest is None else b"\x01" + manifest) for name, manifest in types]
    return u16(len(types)) + b"".join(spelled) + typed_words(values)


def typed_words(items):
    return u16(len(items)) + b"".join(word(name) + its_type for name, its_type in items)


def module(name, sig_types=(), sig_values=(), types=(), fields=(), version=MYNAME):
    """Spells a module; a field is (word, type, term)."""
    spelled = b"".join(word(field) + field_type + term for field, field_type, term in fields)
    head = b"\x01" + word(name) + version + signature(sig_types, sig_values)
    return head + typed_words(types) + u16(len(fields)) + spelled


def imported(name, types=(), values=(), constraint=ANY_VERSION, like=(), by=(HERE_ALREADY,)):
    """Spells an import."""
    head = b"\x02" + word(name) + signature(types, values) + constraint
    return head + typed_words(like) + bytes([len(by)]) + b"".join(by)


def name_of(text):
    """Returns the name of a module that refers to no other, from its spelling."""
    return hashlib.sha256(text).digest()


def packet(definitions, value_type, value):
    return b"ACUP\x01" + u16(len(definitions)) + b"".join(definitions) + value_type + value


def packet_of_int(definitions):
    return packet(definitions, INT, int_term(0))


def frame(text):
    assert len(text) <= LONGEST, len(text)
    return u32(len(text)) + text


# ---- names that differ --------------------------------------------------------------------------

FIRST_LETTERS = "abcdefghijklmnopqrstuvwxyz_"
LETTERS = "abcdefghijklmnopqrstuvwxyzABCDEFGHIJKLMNOPQRSTUVWXYZ0123456789_"
RESERVED = set(
    "as bool by else end exn false fun if import in int let like list mark marshal match mod module myname name not option raise"
    " rec sig string struct then true try type unit unmarshal val version with".split()
)


def written(number, firsts, width):
    text = ""
    for _ in range(width - 1):
        number, letter = divmod(number, len(LETTERS))
        text = LETTERS[letter] + text
    return firsts[number] + text


def upper_name(number, width=3):
    """Returns a name of modules of that width, another one for each number."""
    return written(number, FIRST_LETTERS[:26].upper(), width)


def lower_names(count, width=2):
    """Returns so many names of values, types and variables, of that width."""
    names = (written(number, FIRST_LETTERS, width) for number in range(count + len(RESERVED)))
    return [name for name in names if name not in RESERVED][:count]


def small_modules(count):
    """Returns so many modules of the shortest form, of 15 bytes each, with names that differ."""
    return [module(upper_name(number)) for number in range(count)]
