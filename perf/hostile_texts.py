"""The largest texts for the passes up to the parser: bytes, tokens, openers and heights.

Each function returns a call: the files by their names, and the words. `accepted` stands for status 0, and any other answer for the
beginning of what a refusal says.
"""
from cases import Cases
from packets import LONGEST, lower_names

TEXTS = Cases()
GIGABYTE = 1 << 30    # in place of a text: a file of so many zeros, which takes no room


def run(text):
    return {"a.ac": text}, ["run", "a.ac"]


def filled(before, part, behind="", size=LONGEST):
    """Returns a text with a part as often as it fits between two others."""
    return before + part * ((size - len(before) - len(behind)) // len(part)) + behind


def joined(before, parts, behind="", size=LONGEST):
    """Returns a text with as many of the parts as fit."""
    taken, left = [], size - len(before) - len(behind)
    for part in parts:
        left -= len(part)
        if left < 0:
            break
        taken.append(part)
    return before + "".join(taken) + behind


def tuples(parts, between=","):
    """Returns tuples of tuples with these parts: a pattern, or, with a star between them, a type."""
    while len(parts) > 1:
        groups = [parts[at : at + 16] for at in range(0, len(parts), 16)]
        parts = [f"({between.join(it)})" if len(it) > 1 else it[0] for it in groups]
    return parts[0]


# ---- bytes and tokens ---------------------------------------------------------------------------


@TEXTS.case("accepted")
def blanks():
    """blanks before `()`"""
    return run(" " * (LONGEST - 2) + "()")


@TEXTS.case("accepted")
def comments():
    """comments before `()`"""
    return run(filled("", "(**)", "()"))


@TEXTS.case("accepted")
def nested_comments():
    """one comment nested 262,143 deep"""
    deep = (LONGEST - 2) // 4
    return run("(*" * deep + "*)" * deep + "()")


@TEXTS.case("lexical at 0")
def open_comments():
    """comments that aren't closed"""
    return run("(*" * (LONGEST // 2))


@TEXTS.case("accepted")
def string():
    """one string"""
    return run('"' + "a" * (LONGEST - 2) + '"')


@TEXTS.case("accepted")
def escapes():
    """one string of escapes"""
    return run(filled('"', "\\x00", '"'))


@TEXTS.case("lexical at 0")
def open_string():
    """a string that isn't closed"""
    return run('"' + "a" * (LONGEST - 1))


@TEXTS.case("lexical at 0")
def identifier():
    """one identifier"""
    return run("a" * LONGEST)


@TEXTS.case("lexical at 0")
def digits():
    """one number of nines"""
    return run("9" * LONGEST)


@TEXTS.case("accepted")
def zeros():
    """one number of zeros"""
    return run("0" * LONGEST)


@TEXTS.case("syntax at 0")
def symbols():
    """semicolons alone"""
    return run(";" * LONGEST)


@TEXTS.case("too_long at 1048577")
def byte_too_many():
    """a text with a byte too many"""
    return run(" " * (LONGEST + 1))


@TEXTS.case("too_long at 1048577")
def far_too_long():
    """a file of 1 GB"""
    return run(GIGABYTE)


# ---- openers ------------------------------------------------------------------------------------


def opened(word):
    return run(filled("", word))


@TEXTS.case("too_deep at 200")
def parentheses():
    """open parentheses"""
    return opened("(")


@TEXTS.case("too_deep at 1200")
def matches():
    """`match`, never closed"""
    return opened("match ")


@TEXTS.case("too_deep at 800")
def tries():
    """`try`, never closed"""
    return opened("try ")


@TEXTS.case("too_deep at 800")
def signatures():
    """`sig`, never closed"""
    return opened("sig ")


@TEXTS.case("accepted")
def closed_openers():
    """200 parentheses, one in another, as often as they fit"""
    one = "(" * 199 + "()" + ")" * 199
    return run(filled("", one + ";", one))


# ---- heights ------------------------------------------------------------------------------------


@TEXTS.case("syntax")
def additions():
    """one sum"""
    return run(filled("1", "+1"))


@TEXTS.case("syntax")
def products():
    """one product"""
    return run(filled("1", "*1"))


@TEXTS.case("syntax")
def list_items():
    """one list"""
    return run(filled("", "1::", "([]:int list)"))


@TEXTS.case("syntax")
def conjunctions():
    """one conjunction"""
    return run(filled("true", "&&true"))


@TEXTS.case("syntax")
def disjunctions():
    """one disjunction"""
    return run(filled("true", "||true"))


@TEXTS.case("syntax")
def minuses():
    """minuses in front of a number"""
    return run(filled("", "-", "1"))


@TEXTS.case("syntax")
def negations():
    """`not`, one in front of another"""
    return run(filled("", "not ", "true"))


@TEXTS.case("syntax")
def arguments():
    """a name applied to itself"""
    return run(filled("f", " f"))


@TEXTS.case("syntax")
def lets():
    """`let`, one in another"""
    return run(filled("", "let a:int=1 in ", "a"))


@TEXTS.case("syntax")
def bound_lets():
    """`let`, one in what another binds"""
    return run(filled("", "let a:int=", "1"))


@TEXTS.case("syntax")
def recursive_lets():
    """`let rec`, one in another"""
    return run(filled("", "let rec f(a:int):int=a in ", "1"))


@TEXTS.case("syntax")
def functions():
    """`fun`, one in another"""
    return run(filled("", "fun(a:int)->", "a"))


@TEXTS.case("syntax")
def recursive_functions():
    """`rec`, one in another"""
    return run(filled("", "rec f(a:int):int=", "a"))


@TEXTS.case("syntax")
def tests():
    """`if`, one in the test of another"""
    return run(filled("", "if "))


@TEXTS.case("syntax")
def then_parts():
    """`if`, one behind the `then` of another"""
    return run(filled("", "if true then ", "1"))


@TEXTS.case("syntax")
def else_parts():
    """`if`, one behind the `else` of another"""
    return run(filled("", "if true then 1 else ", "1"))


@TEXTS.case("syntax")
def arrows():
    """a type of functions"""
    return run(filled("fun(a:int", "->int", ")->a"))


@TEXTS.case("syntax")
def lists_of_lists():
    """a type of lists of lists"""
    return run(filled("fun(a:int", " list", ")->a"))


@TEXTS.case("syntax")
def list_pattern():
    """a pattern of a list"""
    return run(filled("match 1 with ", "_::", "_->1 end"))


@TEXTS.case("accepted")
def high_expressions():
    """functions over sums of height 490, as often as they fit"""
    names = lower_names(1024)
    fields = [f"val {name}:int->int=fun(a:int)->a{'+a' * 489}\n" for name in names]
    return run(joined("module M:sig end=struct ", fields, "end ()"))
