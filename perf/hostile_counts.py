"""The largest texts that are refused for their scopes: by counts that pass their limit, and by names.

Each function returns a call, as those of the other texts do.
"""
from cases import Cases
from hostile_texts import filled, joined, run, tuples
from packets import LONGEST, lower_names

COUNTS = Cases()


@COUNTS.case("too_many at 17")
def tuple_parts():
    """one tuple"""
    return run(filled("(1", ",1", ")"))


@COUNTS.case("too_many at 17")
def tuple_type():
    """one type of a tuple"""
    return run(filled("fun(a:int", "*int", ")->a"))


@COUNTS.case("too_many at 17")
def tuple_pattern():
    """one pattern of a tuple"""
    return run(filled("match 1 with (_", ",_", ")->1 end"))


@COUNTS.case("too_many at 1025")
def arms_too_many():
    """a match"""
    return run(filled("match 1 with 1->1", "|1->1", " end"))


@COUNTS.case("too_many at 1025")
def handlers_too_many():
    """a try"""
    return run(filled("try 1 with _->1", "|_->1", " end"))


@COUNTS.case("too_many at 1025")
def types_too_many():
    """types of a signature"""
    return run(joined("import I:sig ", (f"type {it} " for it in lower_names(100_000, 4)), "end version * by Static_Link ()"))


@COUNTS.case("too_many at 1025")
def values_too_many():
    """values of a signature"""
    return run(joined("import I:sig ", (f"val {it}:int " for it in lower_names(100_000, 4)), "end version * by Static_Link ()"))


@COUNTS.case("too_many at 1025")
def fields_too_many():
    """fields of a module"""
    return run(joined("module M:sig end=struct ", (f"val {it}:int=1 " for it in lower_names(100_000, 4)), "end ()"))


@COUNTS.case("too_many at 1025")
def likespec_too_many():
    """types of a likespec"""
    likes = (f"type {it}=int " for it in lower_names(100_000, 4))
    return run(joined("import I:sig end version * like struct ", likes, "end by Static_Link ()"))


@COUNTS.case("too_many at 4097")
def marks_too_many():
    """marks"""
    return run(joined("", (f'mark "{it}"' for it in lower_names(100_000, 4)), "()"))


@COUNTS.case("too_many at 4097")
def modules_too_many():
    """modules"""
    return run(filled("", "module A:sig end=struct end ", "()"))


@COUNTS.case("too_many at 17")
def atoms_too_many():
    """atoms of a resolvespec"""
    return run(filled("import I:sig end version * by Static_Link", ",Static_Link", " ()"))


@COUNTS.case("too_many at 1025")
def uri_too_long():
    """a URI"""
    return run(filled('import I:sig end version * by "', "u", '" ()'))


@COUNTS.case("syntax")
def version_atoms():
    """atoms of a version"""
    return run(filled("module M:sig end version 1", ".1", "=struct end ()"))


@COUNTS.case("too_many at 65536")
def variables_too_many():
    """variables of one pattern"""
    return run("match 1 with " + tuples([f"({it}:int)" for it in lower_names(80_000, 4)]) + "->1 end")


@COUNTS.case("repeated")
def variable_repeated():
    """variables of one pattern, of which the last is the first once more"""
    names = lower_names(80_000, 4)
    return run("match 1 with " + tuples([f"({it}:int)" for it in [*names, names[0]]]) + "->1 end")


@COUNTS.case("repeated")
def value_repeated():
    """values of a signature, of which the last is the first once more"""
    values = joined("", (f"val {it}:int " for it in lower_names(100_000, 4)), size=LONGEST - 100)
    return run(f"import I:sig {values}{values[: values.index('int')]}int end version * by Static_Link ()")


@COUNTS.case("repeated")
def mark_repeated():
    """marks, of which the last is the first once more"""
    marks = joined("", (f'mark "{it}"' for it in lower_names(100_000, 4)), size=LONGEST - 100)
    return run(f'{marks}{marks[: marks.index("mark", 1)]}()')


@COUNTS.case("unbound")
def unbound_at_the_end():
    """a sequence whose last part isn't bound"""
    return run(filled("", "();", "a"))


@COUNTS.case("too_many at 101")
def types_that_double_too_often():
    """abbreviations, each a pair of the one before"""
    names = lower_names(1024)
    types = (f"type {it}={before}*{before} " for before, it in zip(names, names[1:]))
    return run(joined(f"module M:sig end=struct type {names[0]}=int ", types, "end ()"))
