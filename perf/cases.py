"""Keeps cases by their names, for the scripts beside it."""
import collections

Case = collections.namedtuple("Case", "what answer make")


class Cases(dict):
    """The cases of a script, in the order in which they are written."""

    def case(self, answer):
        """Takes in the function below it: its name, its first line as what is in the case, and how the program has to answer."""

        def taken(make):
            self[make.__name__] = Case(make.__doc__.strip(), answer, make)
            return make

        return taken

    def chosen(self, names):
        """Returns the cases of these names, or all where none is given."""
        missing = [name for name in names if name not in self]
        if missing:
            raise SystemExit(f"no such case: {', '.join(missing)}; there are {', '.join(self)}")
        return {name: self[name] for name in names or self}
