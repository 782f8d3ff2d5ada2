"""The deepest texts and packets that the limits allow: a height of 500, 200 openers, types of height 100, a nesting of 500.

It is read by stack.py, and runs nothing by itself. `refused` names what is refused, and how.
"""
from packets import *
from worst_definitions import field_module

DEEP = 490      # forms, one in another, with room for what stands around them
OPENERS = 195   # the same for those with parentheses
TYPES = 98      # the same for those whose types nest

# ---- texts --------------------------------------------------------------------------------------


def nested(before, inner, behind="", times=DEEP):
    return before * times + inner + behind * times


def typed(expression, its_type):
    """Returns an expression that is matched, and so of any type, with a unit as the result."""
    return f"match {expression} with (x:{its_type})->() end"


OPERATORS = {
    "additions, 350": "1" + "+1" * 350,
    "additions": "1" + "+1" * DEEP,
    "subtractions": "1" + "-1" * DEEP,
    "products": "1" + "*1" * DEEP,
    "quotients": "1" + "/1" * DEEP,
    "remainders": "1" + " mod 1" * DEEP,
    "strings joined": '"a"' + '^"a"' * DEEP,
    "conjunctions": "true" + "&&true" * DEEP,
    "disjunctions": "false" + "||false" * DEEP,
    "a list": "1::" * DEEP + "([]:int list)",
    "minuses": "-" * DEEP + "1",
    "negations": "not " * DEEP + "true",
}

BINDINGS = {
    "lets": nested("let a:int=1 in ", "a"),
    "lets that bind lets": nested("let a:int=", "1", " in a"),
    "recursive lets": nested("let rec f(a:int):int=a in ", "f 1"),
    "functions": nested("fun(a:int)->", "a", times=TYPES),
    "functions, too high": nested("fun(a:int)->", "a"),
    "functions in functions": nested("let f:int->int=fun(a:int)->", "1", " in f 1", DEEP // 2),
    "recursive functions": nested("let f:int->int=rec g(a:int):int=", "1", " in f 1", DEEP // 2),
}

BRANCHES = {
    "tests": nested("if ", "true", " then true else false"),
    "then parts": nested("if true then ", "1", " else 1"),
    "else parts": nested("if true then 1 else ", "1"),
    "matches": nested("match ", "1", " with _->1 end", OPENERS),
    "matches in arms": nested("match 1 with _->", "1", " end", OPENERS),
    "tries": nested("try ", "1", " with _->1 end", OPENERS),
    "tries in arms": nested("try raise Not_found:int with _->", "1", " end", OPENERS),
}

DATA = {
    "sequences": nested("(();", "()", ")", OPENERS),
    "parentheses": nested("(", "1", ")", OPENERS),
    "parentheses in lets": nested("let a:int=(", nested("let a:int=1 in ", "a", times=DEEP - OPENERS), ") in a", OPENERS),
    "tuples": nested("(", "1", ",1)", TYPES),
    "options": nested("Some(", "1", ")", TYPES),
    "arguments": f"(raise Not_found:{'int->' * TYPES}int)" + " 1" * TYPES,
    "calls": "let f:int->int=fun(a:int)->a in " + nested("f(", "1", ")", OPENERS),
    "exceptions": nested("raise(", "Not_found", "):exn", OPENERS),
    "marshals": 'mark "M"' + nested("marshal(", '"M"', ")1:int", OPENERS),
    "unmarshals": nested("unmarshal(", '""', ")as string", OPENERS),
    "a pattern of a list": "match([]:int list)with " + "_::" * DEEP + "_->1|_->2 end",
    "a pattern of tuples": f"match raise Not_found:{nested('(', 'int', '*int)', TYPES)} with {nested('(', '_', ',_)', TYPES)}->1 end",
    "a pattern of options": f"match(None:int{' option' * TYPES})with {nested('Some(', '_', ')', TYPES - 1)}->1|_->2 end",
    "a type of lists": typed(f"([]:int{' list' * TYPES})", f"int{' list' * TYPES}"),
    "a type of functions": typed(f"raise Not_found:{'int->' * TYPES}int", f"{'int->' * TYPES}int"),
}


def in_field(text):
    """Returns a program with the expression in the field of a module."""
    return f"module M:sig end=struct val f:unit->unit=fun(u:unit)->match({text})with _->() end end ()"


CHAIN = "module M:sig val k:int end=struct val k:int=0 end " + "module M:sig val k:int end=struct val k:int=M.k end " * 4_000

LONG_RUNS = {
    "a chain of modules": CHAIN + "IO.print_int M.k",
    "calls that return": "let rec f(n:int):int=if n=0 then 0 else 1+f(n-1) in IO.print_int(f 500000)",
    "a long list": "let rec f(n:int):int list=if n=0 then([]:int list)else n::f(n-1) in"
    " match f 500000 with(a:int)::_->IO.print_int a|_->() end",
    "functions that capture functions": "let rec f(n:int):unit->int=if n=0 then fun(u:unit)->0 else"
    " let g:unit->int=f(n-1) in fun(u:unit)->1+g() in IO.print_int(f 300000())",
    "handlers": "let rec f(n:int):int=if n=0 then(raise Not_found:int)else try f(n-1) with End_of_file->0 end in"
    " try f 300000 with Not_found->IO.print_int 1; 0 end",
    "a deep value that is marshalled": 'mark "M" let rec f(n:int):unit->int=if n=0 then fun(u:unit)->0 else'
    ' let g:unit->int=f(n-1) in fun(u:unit)->g() in IO.print_int(Str.length(marshal "M"(f 120):unit->int))',
}


def texts():
    """Returns the programs by what they nest: expressions, the same in fields, and what runs deep."""
    expressions = {**OPERATORS, **BINDINGS, **BRANCHES, **DATA}
    fields = {f"{name}, in a field": in_field(text) for name, text in expressions.items() if not text.startswith("mark")}
    return {**expressions, **fields, **LONG_RUNS}


# ---- packets ------------------------------------------------------------------------------------

NOT_FOUND = b"\x05\x02"
NO_INTS = b"\x07" + list_type(INT)
TRUE = b"\x02\x01"


def around(wrap, inner, times=DEEP):
    """Returns a term that is wrapped so often."""
    for _ in range(times):
        inner = wrap(inner)
    return inner


TERMS = {
    "lets": around(lambda it: let(UNIT, UNIT_TERM, it), UNIT_TERM),
    "lets that bind lets": around(lambda it: let(UNIT, it, UNIT_TERM), UNIT_TERM),
    "tests": ignored(around(lambda it: conditional(it, TRUE, TRUE), TRUE)),
    "then parts": around(lambda it: conditional(TRUE, it, UNIT_TERM), UNIT_TERM),
    "else parts": around(lambda it: conditional(TRUE, UNIT_TERM, it), UNIT_TERM),
    "sequences": around(lambda it: repeated(UNIT_TERM, 1, it), UNIT_TERM),
    "sequences in front": around(lambda it: repeated(it, 1), UNIT_TERM),
    "matches": around(ignored, UNIT_TERM),
    "matches in arms": around(lambda it: ignored(UNIT_TERM, it), UNIT_TERM),
    "tries": around(lambda it: handled(it, UNIT_TERM), UNIT_TERM),
    "tries in arms": around(lambda it: handled(UNIT_TERM, it), UNIT_TERM),
    "negations": ignored(around(lambda it: primitive(9, it), TRUE)),
    "additions": ignored(around(lambda it: primitive(0, it, int_term(1)), int_term(1))),
    "additions to the right": ignored(around(lambda it: primitive(0, int_term(1), it), int_term(1))),
    "a list": ignored(around(lambda it: cons(int_term(1), it), NO_INTS)),
    "options": ignored(around(some, UNIT_TERM, TYPES)),
    "tuples": ignored(around(lambda it: tuple_of([it, UNIT_TERM]), UNIT_TERM, TYPES)),
    "functions": ignored(around(lambda it: function(UNIT, it), UNIT_TERM, TYPES)),
    "functions, too high": ignored(around(lambda it: function(UNIT, it), UNIT_TERM)),
    "calls of functions": around(lambda it: applied(function(UNIT, it), UNIT_TERM), UNIT_TERM, DEEP // 2),
    "recursive functions": around(lambda it: applied(recursive(UNIT, UNIT, it), UNIT_TERM), UNIT_TERM, DEEP // 2),
    "exceptions": ignored(around(lambda it: raised(EXN, it), NOT_FOUND)),
    "marshals": ignored(around(lambda it: marshalled(INT, it, int_term(1)), b"\x03" + u32(0))),
    "unmarshals": ignored(around(lambda it: unmarshalled(STRING, it), b"\x03" + u32(0))),
    "a pattern of a list": match(NO_INTS, (around(lambda it: cons_pattern(ANYTHING, it), ANYTHING, DEEP - 10), UNIT_TERM)),
}

CAPTURED = around(lambda it: ignored(captured(UNIT_TO_UNIT, unit_function(it))), UNIT_TERM, DEEP // 4)

VALUES = {
    "a value of lists": (
        "unit" + " list" * TYPES,
        around(list_type, UNIT, TYPES),
        around(lambda it: list_value([it]), UNIT_TERM, TYPES),
    ),
    "a value of options": (
        "unit" + " option" * TYPES,
        around(lambda it: b"\x08" + it, UNIT, TYPES),
        around(some, UNIT_TERM, TYPES),
    ),
    "a value of tuples": (
        nested("(", "unit", "*unit)", TYPES),
        around(lambda it: tuple_of([it, UNIT]), UNIT, TYPES),
        around(lambda it: tuple_of([it, UNIT_TERM]), UNIT_TERM, TYPES),
    ),
}


def chain_of_modules(count):
    """Returns modules of which each refers to the one before."""
    first = module("A", (), [("k", INT)], (), [("k", INT, int_term(0))])
    return [first, *(module("A", (), [("k", INT)], (), [("k", INT, reference(it, "k"))]) for it in range(count - 1))]


def function_packet(body, definitions=()):
    return "unit->unit", packet(definitions, UNIT_TO_UNIT, unit_function(body))


def strings():
    """Returns packets by what they nest, each as the type at which it is read, and the string."""
    functions = {**TERMS, "captured functions": CAPTURED, "lets, too deep": around(lambda it: let(UNIT, UNIT_TERM, it), UNIT_TERM, 500)}
    read = {name: function_packet(body) for name, body in functions.items()}
    fields = {f"{name}, in a field": ("int", packet_of_int([field_module(body)])) for name, body in TERMS.items()}
    values = {name: (written, packet([], its_type, value)) for name, (written, its_type, value) in VALUES.items()}
    chain = function_packet(ignored(reference(19_999, "k")), chain_of_modules(20_000))
    return {**read, **fields, **values, "a chain of modules": chain}


# What isn't accepted: of texts the refusal, of strings the exception.
REFUSED_TEXTS = {name: "type at 0" for name in ("functions, too high", "functions, too high, in a field")}
REFUSED_STRINGS = {"functions, too high": "value", "functions, too high, in a field": "definition", "lets, too deep": "format"}
