"""Packets by the rules of docs/FORMATS.md and docs/RULES.md alone: which bytes spell one, and which of them are accepted.

It shares no code with the product. It knows no import by exact name and no shelf.
"""

import hashlib
import re

# Reading.

RESERVED = set(
    "as bool by else end exn false fun if import in int let like list mark marshal match mod module myname name not option"
    " raise rec sig string struct then true try type unit unmarshal val version with Some None Static_Link Here_Already"
    " Failure Invalid_argument Not_found Division_by_zero Match_failure End_of_file Sys_error Marshal_failure"
    " Unmarshal_failure Resolve_failure".split()
)
LOWER = re.compile(rb"[a-z_][A-Za-z0-9_']*")
UPPER = re.compile(rb"[A-Z][A-Za-z0-9_']*")
WITH_TEXT = {0, 1, 6, 7, 8, 9}
ARGUMENTS = [2, 2, 2, 2, 2, 1, 2, 2, 2, 1, 1, 1, 1, 1, 1, 1, 1]
MOST_BYTES = 1_048_576
DEEPEST = 500


class Misfit(Exception):
    """The bytes spell nothing."""


class IllTyped(Exception):
    """There is no such type."""


def fits(holds):
    if not holds:
        raise Misfit


class Reader:
    """Bytes that are read from their front. It notes where references stand."""

    def __init__(self, data):
        self.data, self.at, self.references = data, 0, []

    def take(self, count):
        fits(count <= len(self.data) - self.at)
        self.at += count
        return self.data[self.at - count : self.at]

    def number(self, width, least=0, most=None):
        number = int.from_bytes(self.take(width), "big")
        fits(least <= number and (most is None or number <= most))
        return number

    def integer(self):
        return int.from_bytes(self.take(8), "big", signed=True)

    def string(self, most=MOST_BYTES):
        return self.take(self.number(4, 0, most))

    def word(self, token):
        word = self.take(self.number(1, 1))
        fits(token.fullmatch(word) and word != b"_" and word.decode() not in RESERVED)
        return word

    def many(self, width, least, most, item):
        return [item() for _ in range(self.number(width, least, most))]

    # Types.

    def type(self, own=False):
        ty = self.part(own)
        fits(small(ty))
        return ty

    def part(self, own):
        tag = self.number(1)
        if 1 <= tag <= 5:
            return (["int", "bool", "string", "unit", "exn"][tag - 1],)
        if tag == 6:
            return ("tuple", *self.many(1, 2, 16, lambda: self.part(own)))
        if tag in (7, 8):
            return ("list" if tag == 7 else "option", self.part(own))
        if tag == 9:
            return ("fun", self.part(own), self.part(own))
        if tag == 10:
            return ("of", self.take(32), self.word(LOWER))
        fits(tag == 11 and own)
        return ("mine", self.word(LOWER))

    # Patterns, terms and values. What they nest in is counted.

    def pattern(self, depth):
        fits(depth <= DEEPEST)
        tag, inner = self.number(1), lambda: self.pattern(depth + 1)
        if tag in (1, 6, 8, 10):
            return (["any", "unit", "nil", "none"][(1, 6, 8, 10).index(tag)],)
        if tag == 2:
            return ("var", self.type())
        if tag == 3:
            return ("int", self.integer())
        if tag == 4:
            return ("bool", self.number(1, 0, 1))
        if tag == 5:
            return ("string", self.string())
        if tag == 7:
            return ("tuple", *self.many(1, 2, 16, inner))
        if tag == 9:
            return ("cons", inner(), inner())
        if tag == 11:
            return ("some", inner())
        fits(tag == 12)
        number = self.number(1, 0, 9)
        return ("exn", number, inner() if number in WITH_TEXT else None)

    def arms(self, inner, depth):
        return self.many(2, 1, 1024, lambda: (self.pattern(depth + 1), inner()))

    def term(self, depth, captured):
        fits(depth <= DEEPEST)
        tag, inner = self.number(1), lambda: self.term(depth + 1, captured)
        if tag == 1:
            return ("int", self.integer())
        if tag == 2:
            return ("bool", self.number(1, 0, 1))
        if tag == 3:
            return ("string", self.string())
        if tag == 4:
            return ("unit",)
        if tag == 5:
            number = self.number(1, 0, 9)
            return ("exn", number, inner() if number in WITH_TEXT else None)
        if tag == 6:
            return ("tuple", *self.many(1, 2, 16, inner))
        if tag in (7, 8):
            return ("nil" if tag == 7 else "none", self.type())
        if tag == 9:
            return ("some", inner())
        if tag in (10, 16):
            return ("cons" if tag == 10 else "app", inner(), inner())
        if tag in (11, 12):
            return ("var" if tag == 11 else "own", self.number(2))
        if tag == 13:
            self.references.append(self.at)
            return ("ref", self.number(2), self.word(LOWER))
        if tag == 14:
            return ("lam", self.type(), inner())
        if tag == 15:
            return ("rec", self.type(), self.type(), inner())
        if tag in (17, 24):
            return ("let" if tag == 17 else "marshal", self.type(), inner(), inner())
        if tag == 18:
            return ("if", inner(), inner(), inner())
        if tag == 19:
            return ("seq", *self.many(4, 2, None, inner))
        if tag in (20, 21):
            return ("match" if tag == 20 else "try", inner(), self.arms(inner, depth))
        if tag in (22, 25):
            return ("raise" if tag == 22 else "unmarshal", self.type(), inner())
        if tag == 23:
            number = self.number(1, 0, 16)
            return ("prim", number, *[inner() for _ in range(ARGUMENTS[number])])
        fits(tag == 26 and captured)
        return ("val", self.type(), self.value(depth + 1))

    def value(self, depth):
        fits(depth <= DEEPEST)
        tag, inner = self.number(1), lambda: self.value(depth + 1)
        if tag == 1:
            return ("int", self.integer())
        if tag == 2:
            return ("bool", self.number(1, 0, 1))
        if tag == 3:
            return ("string", self.string())
        if tag == 4:
            return ("unit",)
        if tag == 5:
            number = self.number(1, 0, 9)
            return ("exn", number, self.string() if number in WITH_TEXT else None)
        if tag == 6:
            return ("tuple", *self.many(1, 2, 16, inner))
        if tag == 7:
            return ("list", *self.many(4, 0, None, inner))
        if tag == 8:
            return ("none",)
        if tag == 9:
            return ("some", inner())
        fits(tag == 10)
        home, term = self.number(2), self.term(depth + 1, True)
        fits(term[0] in ("lam", "rec"))
        return ("function", home, term)

    # Definitions.

    def named(self, own=False):
        return (self.word(LOWER), self.type(own))

    def spec(self):
        name = self.word(LOWER)
        return (name, self.type(True) if self.number(1, 0, 1) else None)

    def signature(self):
        return (self.many(2, 0, 1024, self.spec), self.many(2, 0, 1024, lambda: self.named(True)))

    def field(self):
        name, ty = self.named()
        return (name, ty, self.term(1, False))

    def atom(self):
        return self.number(4) if self.number(1, 1, 2) == 1 else "myname"

    def interval(self):
        tag = self.number(1, 1, 4)
        if tag == 2:
            return (self.number(4), self.number(4))
        number = self.number(4)
        return [(number, number), None, (0, number), (number, None)][tag - 1]

    def constraint(self):
        if self.number(1, 1, 2) == 2:
            return self.take(32)
        intervals = self.many(1, 0, 8, self.interval)
        star = self.number(1, 0, 1) == 1
        fits(intervals or star)
        return (intervals, star)

    def place(self):
        tag = self.number(1, 1, 3)
        return self.string(1024) if tag == 3 else ("static" if tag == 1 else "here")

    def definition(self):
        start, self.references = self.at, []
        it = Definition()
        it.is_module = self.number(1, 1, 2) == 1
        it.external = self.word(UPPER)
        if it.is_module:
            it.version = self.many(1, 1, 8, self.atom)
            it.types, it.values = self.signature()
            it.inside = self.many(2, 0, 1024, self.named)
            it.fields = self.many(2, 0, 1024, self.field)
            it.spelled = self.data[start : self.at]
        else:
            it.types, it.values = self.signature()
            it.constraint = self.constraint()
            it.inside = self.many(2, 0, 1024, self.named)
            it.spelled = self.data[start : self.at]
            it.by = self.many(1, 1, 16, self.place)
        it.references = [at - start for at in self.references]
        return it

    def packet(self):
        fits(len(self.data) <= MOST_BYTES and self.take(5) == b"ACUP\x01")
        definitions = self.many(2, 0, None, self.definition)
        ty, value = self.type(), self.value(1)
        fits(self.at == len(self.data))
        return definitions, ty, value


class Definition:
    """A module or an import. `inside` has the struct's types, or the likespec's."""

    def is_exact(self):
        return not self.is_module and isinstance(self.constraint, bytes)

    def is_abstract(self, name):
        return (name, None) in self.types


def size(ty):
    inner = [size(part) for part in ty[1:] if isinstance(part, tuple)]
    return 1 + sum(parts for parts, _ in inner), 1 + max((height for _, height in inner), default=0)


def small(ty):
    parts, height = size(ty)
    return parts <= 4096 and height <= 100


# The rules.


def give_names(definitions):
    """Each definition's name: the one demanded, or the digest of its text, in which references are spelled by names."""
    for i, it in enumerate(definitions):
        text, done = b"", 0
        for at in it.references:
            number = int.from_bytes(it.spelled[at : at + 2], "big")
            # What refers to no earlier definition isn't well formed, whatever its name is.
            known = definitions[number].name if number < i else b""
            text, done = text + it.spelled[done:at] + known, at + 2
        it.name = it.constraint if it.is_exact() else hashlib.sha256(text + it.spelled[done:]).digest()


def mentions(tree):
    """The names with their types that a tree mentions."""
    if isinstance(tree, (tuple, list)):
        if len(tree) == 3 and tree[0] == "of":
            return [tree[1:]]
        return [name for part in tree for name in mentions(part)]
    return []


def own_types(ty):
    return [ty[1]] if ty[0] == "mine" else [t for part in ty[1:] if isinstance(part, tuple) for t in own_types(part)]


def replaced(ty, by):
    """A type in which `by` tells what stands for its parts, where it tells something."""
    new = by(ty)
    if new is not None:
        return new
    return tuple(replaced(part, by) if isinstance(part, tuple) else part for part in ty)


class Environment:
    """Definitions, among which no import is by exact name."""

    def __init__(self, definitions):
        self.definitions = definitions

    def representation(self, name, t):
        for it in self.definitions:
            if it.name == name:
                return dict(it.inside).get(t)
        return None

    def view(self, home, ty):
        """How a type looks from a definition, or from the main program, which is None."""
        if home is None:
            return ty
        return replaced(ty, lambda t: self.representation(*t[1:]) if t[0] == "of" and t[1] == home.name else None)

    def type_of_spec(self, home, j, x):
        it = self.definitions[j]
        ty = dict(it.values).get(x)
        if ty is None:
            raise IllTyped
        return self.view(home, replaced(ty, lambda t: ("of", it.name, t[1]) if t[0] == "mine" else None))

    def holds(self, value, ty):
        kind, head = value[0], ty[0]
        if head == "of":
            inside = self.representation(*ty[1:])
            return inside is not None and self.holds(value, inside)
        if kind in ("tuple", "list"):
            types = ty[1:] if kind == "tuple" else ty[1:] * (len(value) - 1)
            return kind == head and len(types) == len(value) - 1 and all(map(self.holds, value[1:], types))
        if kind in ("none", "some"):
            return head == "option" and all(self.holds(part, ty[1]) for part in value[1:])
        if kind == "function":
            return head == "fun" and self.has_type(value[1], value[2], ty)
        return kind == head

    def has_type(self, number, term, ty):
        """Whether the lambda of a packed function has a type in its home, the main program (0) or definition `number` - 1."""
        home = self.definitions[number - 1] if number else None
        try:
            typing = Typing(self, home, len(home.fields) if home else 0, len(self.definitions))
            return typing.type(term, []) == self.view(home, ty)
        except IllTyped:
            return False


def same(a, b):
    if a != b:
        raise IllTyped
    return a


def only(ty, *heads):
    if ty[0] not in heads:
        raise IllTyped
    return ty


INT, BOOL, STRING, UNIT, EXN = [(head,) for head in ("int", "bool", "string", "unit", "exn")]
PRIMITIVES = {number: (INT, INT, INT) for number in range(5)} | {
    5: (INT, INT),
    8: (STRING, STRING, STRING),
    9: (BOOL, BOOL),
    10: (INT, UNIT),
    11: (STRING, UNIT),
    12: (STRING, UNIT),
    13: (UNIT, STRING),
    14: (STRING, INT),
    15: (("tuple", STRING, INT, INT), STRING),
    16: (INT, STRING),
}


class Typing:
    """The types of terms in a home, which see so many own fields, and so many definitions."""

    def __init__(self, env, home, own, known):
        self.env, self.home, self.own, self.known = env, home, own, known

    def seen(self, ty):
        return self.env.view(self.home, ty)

    def type(self, term, around):
        ty = getattr(self, "of_" + term[0])(around, *term[1:])
        if not small(ty):
            raise IllTyped
        return ty

    def of_int(self, _around, _number):
        return INT

    def of_bool(self, _around, _bool):
        return BOOL

    def of_string(self, _around, _text):
        return STRING

    def of_unit(self, _around):
        return UNIT

    def of_exn(self, around, _number, part):
        if part:
            same(self.type(part, around), STRING)
        return EXN

    def of_tuple(self, around, *parts):
        return ("tuple", *[self.type(part, around) for part in parts])

    def of_nil(self, _around, ty):
        return only(self.seen(ty), "list")

    def of_none(self, _around, ty):
        return only(self.seen(ty), "option")

    def of_some(self, around, part):
        return ("option", self.type(part, around))

    def of_cons(self, around, head, rest):
        return same(("list", self.type(head, around)), self.type(rest, around))

    def of_var(self, around, number):
        if number >= len(around):
            raise IllTyped
        return around[number]

    def of_own(self, _around, number):
        if self.home is None or number >= self.own:
            raise IllTyped
        return self.seen(self.home.fields[number][1])

    def of_ref(self, _around, number, x):
        if number >= self.known:
            raise IllTyped
        return self.env.type_of_spec(self.home, number, x)

    def of_lam(self, around, ty, body):
        ty = self.seen(ty)
        return ("fun", ty, self.type(body, [ty] + around))

    def of_rec(self, around, ty, result, body):
        ty, result = self.seen(ty), self.seen(result)
        same(self.type(body, [ty, ("fun", ty, result)] + around), result)
        return ("fun", ty, result)

    def of_app(self, around, function, argument):
        function = only(self.type(function, around), "fun")
        same(function[1], self.type(argument, around))
        return function[2]

    def of_let(self, around, ty, part, body):
        ty = same(self.seen(ty), self.type(part, around))
        return self.type(body, [ty] + around)

    def of_if(self, around, test, first, second):
        same(self.type(test, around), BOOL)
        return same(self.type(first, around), self.type(second, around))

    def of_seq(self, around, *parts):
        for part in parts[:-1]:
            same(self.type(part, around), UNIT)
        return self.type(parts[-1], around)

    def of_match(self, around, part, arms):
        ty = self.type(part, around)
        types = [self.type(body, self.bound(pattern, ty)[::-1] + around) for pattern, body in arms]
        for other in types:
            same(other, types[0])
        return types[0]

    def of_try(self, around, part, arms):
        ty = self.type(part, around)
        for pattern, body in arms:
            same(self.type(body, self.bound(pattern, EXN)[::-1] + around), ty)
        return ty

    def of_raise(self, around, ty, part):
        same(self.type(part, around), EXN)
        return self.seen(ty)

    def of_prim(self, around, number, *parts):
        types = [self.type(part, around) for part in parts]
        if number in (6, 7):
            same(only(types[0], "int", "bool", "string"), types[1])
            return BOOL
        for ty, wanted in zip(types, PRIMITIVES[number]):
            same(ty, wanted)
        return PRIMITIVES[number][-1]

    def of_marshal(self, around, ty, mark, part):
        same(self.type(mark, around), STRING)
        same(self.type(part, around), self.seen(ty))
        return STRING

    def of_unmarshal(self, around, ty, part):
        same(self.type(part, around), STRING)
        return self.seen(ty)

    def of_val(self, _around, ty, value):
        if not self.env.holds(value, ty):
            raise IllTyped
        return self.seen(ty)

    def bound(self, pattern, ty):
        """The types of a pattern's variables, from left to right."""
        kind, parts = pattern[0], pattern[1:]
        if kind == "any":
            return []
        if kind == "var":
            return [same(self.seen(parts[0]), ty)]
        if kind == "tuple":
            only(ty, "tuple")
            same(len(parts), len(ty) - 1)
            return [bound for part, inner in zip(parts, ty[1:]) for bound in self.bound(part, inner)]
        if kind in ("nil", "cons"):
            only(ty, "list")
            return self.bound(parts[0], ty[1]) + self.bound(parts[1], ty) if parts else []
        if kind in ("none", "some"):
            only(ty, "option")
            return self.bound(parts[0], ty[1]) if parts else []
        only(ty, kind)
        return self.bound(parts[1], STRING) if kind == "exn" and parts[1] else []


VALUABLE = {"exn", "tuple", "cons", "some"}


def is_valuable(term):
    if term[0] in ("int", "bool", "string", "unit", "lam", "rec", "nil", "none", "own", "ref"):
        return True
    return term[0] in VALUABLE and all(is_valuable(part) for part in term[1:] if isinstance(part, tuple))


def covers(it):
    """Whether a module's struct has what its signature shows."""
    inside, fields = dict(it.inside), {name: ty for name, ty, _ in it.fields}
    written = lambda ty: replaced(ty, lambda t: inside.get(t[1]) if t[0] == "mine" else None)
    types = all(name in inside and (ty is None or inside[name] == written(ty)) for name, ty in it.types)
    return types and all(fields.get(name) == written(ty) for name, ty in it.values)


def are_distinct(items):
    names = [item[0] for item in items]
    return len(names) == len(set(names))


def is_well_formed(i, definitions):
    it, env = definitions[i], Environment(definitions)
    fields = it.fields if it.is_module else []
    if not all(map(are_distinct, (it.types, it.values, it.inside, fields))):
        return False
    shown = [ty for _, ty in it.types + it.values if ty]
    if not all(it.is_abstract(t) for ty in shown for t in own_types(ty)):
        return False
    for name, t in mentions([it.types, it.values, it.inside, fields]):
        if not any(other.name == name and other.is_abstract(t) for other in definitions[:i]):
            return False
    if it.is_module:
        return covers(it) and all(is_field(env, it, g, i) for g in range(len(fields)))
    return all(name in dict(it.inside) for name, ty in it.types if ty is None)


def is_field(env, it, g, i):
    _, ty, term = it.fields[g]
    try:
        return is_valuable(term) and Typing(env, it, g, i).type(term, []) == env.view(it, ty)
    except IllTyped:
        return False


def meets(version, constraint):
    intervals, star = constraint
    if len(version) < len(intervals) or (len(version) > len(intervals) and not star):
        return False
    return all(
        atom != "myname" and least <= atom and (most is None or atom <= most)
        for atom, (least, most) in zip(version, intervals)
    )


def may_link(it, module):
    inside = dict(module.inside)

    def counterpart(ty):
        if ty[0] != "mine" or not it.is_abstract(ty[1]):
            return None
        return dict(module.types).get(ty[1]) or ty

    types = all(
        name in dict(module.types) and (ty is None or dict(module.types)[name] == replaced(ty, counterpart))
        for name, ty in it.types
    )
    values = all(dict(module.values).get(name) == replaced(ty, counterpart) for name, ty in it.values)
    like = all(inside.get(name) == dict(it.inside)[name] for name, ty in it.types if ty is None)
    return it.external == module.external and meets(module.version, it.constraint) and types and values and like


def linked(it, own):
    """The own module that an import by version links to. There is no shelf here."""
    if "here" not in it.by:
        return None
    return next((module for module in reversed(own) if may_link(it, module)), None)


def homes(tree):
    if isinstance(tree, (tuple, list)):
        inner = [home for part in tree for home in homes(part)]
        return inner + [tree[1]] if tree and tree[0] == "function" else inner
    return []


def references(tree):
    if isinstance(tree, (tuple, list)):
        inner = [number for part in tree for number in references(part)]
        return inner + [tree[1]] if tree and tree[0] == "ref" else inner
    return []


def is_of_packet(definitions, ty, value):
    """Whether a type and a value speak of what the packet has alone."""
    for name, t in mentions([ty, value]):
        if not any(it.name == name and it.is_abstract(t) for it in definitions):
            return False
    for home in homes(value):
        if home > len(definitions) or (home and not definitions[home - 1].is_module):
            return False
    return all(number < len(definitions) for number in references(value))


def answer(data, own, expected):
    """What comes of a string where a packet is wanted: its fault with the number of a definition, or None for a packet that is
    accepted at that type."""
    try:
        definitions, ty, value = Reader(data).packet()
    except Misfit:
        return ("format",)
    give_names(definitions)
    # No change of one byte makes one: what the rules say of it is left out here.
    assert not any(it.is_exact() for it in definitions)
    for i in range(len(definitions)):
        if not is_well_formed(i, definitions):
            return ("definition", i)
    for i, it in enumerate(definitions):
        if not it.is_module and linked(it, own) is None:
            return ("unresolved", i, it.external)
    if ty != expected:
        return ("type",)
    if not is_of_packet(definitions, ty, value) or not Environment(definitions).holds(value, ty):
        return ("value",)
    return None
