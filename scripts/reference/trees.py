"""Lowering: rules by definitional trees, and case distinctions by their first alternative that matches.

Code: (variable, N) (literal, VALUE) (constructed, QNAME, CODES) (called, QNAME, CODES) (partial, HEAD, CODES, MISSING) (set call, N, QNAME,
CODES) (apply, C, C) (or, C, C) (let, N, C, C) (free, N, C) (case, MODE, C, BRANCHES) (failed). BRANCHES are triples of what they are for,
(constructor, QNAME) or (literal, VALUE), the variables of its arguments, and code. Parameters have the first numbers.
"""

import dataclasses

from .modules import prelude


@dataclasses.dataclass
class Row:
    """A rule or an alternative: its patterns at the positions that are left, what its variables are, and its body."""

    patterns: list
    variables: dict
    body: object

    def demands(self, place):
        return key_of(self.patterns[place])


def key_of(pattern):
    """What a pattern asks for, or None where it takes anything."""
    return pattern[:2] if pattern[0] in ("constructor", "literal") else None


def named(row, positions):
    """A row without names: its variables and aliases stand for their positions."""
    patterns, variables = [], dict(row.variables)
    for pattern, position in zip(row.patterns, positions):
        while pattern[0] == "alias":
            variables[pattern[1]] = position
            pattern = pattern[2]
        if pattern[0] == "variable":
            variables[pattern[1]] = position
        patterns.append(pattern)
    return Row(patterns, variables, row.body)


class Lowering:
    """Makes the code of functions."""

    def __init__(self, program):
        self.program, self.numbers = program, 0

    def variable(self):
        self.numbers += 1
        return self.numbers

    def function(self, function):
        """The parameters and the code of a function."""
        self.numbers = 0
        parameters = [self.variable() for _ in range(function.arity)]
        return parameters, self.tree(parameters, [Row(patterns, {}, body) for patterns, body in function.rules])

    def tree(self, positions, rows):
        if not rows:
            return ("failed",)
        rows = [named(row, positions) for row in rows]
        first, *others = rows
        demanded = [place for place in range(len(positions)) if first.demands(place)]
        if not demanded:
            body = self.code(first.body, first.variables)
            return ("or", body, self.tree(positions, others)) if others else body
        for place in demanded:
            if all(row.demands(place) for row in rows):
                return self.branches("Flex", positions, rows, place, self.keys(rows, place), self.tree)
        place = demanded[0]
        asking = [row for row in rows if row.demands(place)]
        return ("or", self.tree(positions, asking), self.tree(positions, [row for row in rows if not row.demands(place)]))

    def keys(self, rows, place):
        """What rows ask for at a place: constructors in the order of declaration, then literals as they come."""
        found = dict.fromkeys(row.demands(place) for row in rows if row.demands(place))
        constructors = [key for key in found if key[0] == "constructor"]
        constructors.sort(key=lambda key: self.program.constructors[key[1]].place)
        return constructors + [key for key in found if key[0] == "literal"]

    def branches(self, mode, positions, rows, place, keys, goes_on):
        made = []
        for key in keys:
            arity = self.program.constructors[key[1]].arity if key[0] == "constructor" else 0
            arguments = [self.variable() for _ in range(arity)]
            inner = positions[:place] + arguments + positions[place + 1 :]
            opened = [self.opened(row, place, arity) for row in rows if row.demands(place) in (key, None)]
            made.append((key, arguments, goes_on(inner, opened)))
        return ("case", mode, ("variable", positions[place]), made)

    @staticmethod
    def opened(row, place, arity):
        """A row with the arguments of what stands at a place in its stead."""
        pattern = row.patterns[place]
        parts = pattern[2] if pattern[0] == "constructor" else [("variable", None)] * arity
        return Row(row.patterns[:place] + list(parts) + row.patterns[place + 1 :], row.variables, row.body)

    def alternatives(self, mode, positions, rows):
        if not rows:
            return ("failed",)
        rows = [named(row, positions) for row in rows]
        first = rows[0]
        demanded = [place for place in range(len(positions)) if first.demands(place)]
        if not demanded:
            return self.code(first.body, first.variables)
        place, goes_on = demanded[0], lambda inner, left: self.alternatives(mode, inner, left)
        key = first.demands(place)
        if all(row.demands(place) for row in rows):
            return self.branches(mode, positions, rows, place, self.keys(rows, place), goes_on)
        if key[0] == "constructor":
            type = self.program.constructors[key[1]].type
            return self.branches(mode, positions, rows, place, [("constructor", each) for each in self.program.types[type]], goes_on)
        return self.test(mode, positions, rows, place, key)

    def test(self, mode, positions, rows, place, key):
        """A distinction by a comparison with a literal."""
        same = [self.opened(row, place, 0) for row in rows if row.demands(place) in (key, None)]
        others = [row for row in rows if row.demands(place) != key]
        test = ("called", prelude("=="), [("variable", positions[place]), key])
        where_same = self.alternatives(mode, positions[:place] + positions[place + 1 :], same)
        where_other = self.alternatives(mode, positions, others)
        truth = [("constructor", prelude(name)) for name in ("True", "False")]
        return ("case", "Rigid", test, [(truth[0], [], where_same), (truth[1], [], where_other)])

    def code(self, term, variables):
        match term:
            case ("variable", number):
                return ("variable", variables[number])
            case ("literal", _):
                return term
            case ("apply", function, argument):
                return ("apply", self.code(function, variables), self.code(argument, variables))
            case ("partial", head, arguments, missing):
                return ("partial", head, [self.code(argument, variables) for argument in arguments], missing)
            case ("whole", head, arguments):
                return self.call(head, [self.code(argument, variables) for argument in arguments])
            case ("let", number, definition, body):
                bound = self.variable()
                made = self.code(definition, variables)
                return ("let", bound, made, self.code(body, {**variables, number: bound}))
            case ("free", number, body):
                bound = self.variable()
                return ("free", bound, self.code(body, {**variables, number: bound}))
            case ("case", mode, examined, alternatives):
                return self.distinction(mode, examined, alternatives, variables)

    @staticmethod
    def call(head, arguments):
        match head:
            case ("constructor", name):
                return ("constructed", name, arguments)
            case ("set", size, name):
                return ("set call", size, name, arguments)
            case ("function", name):
                return ("failed",) if name == prelude("failed") else ("called", name, arguments)

    def distinction(self, mode, examined, alternatives, variables):
        rows = [Row([pattern], variables, body) for pattern, body in alternatives]
        if examined[0] == "variable":
            return self.alternatives(mode, [variables[examined[1]]], rows)
        bound = self.variable()
        made = self.code(examined, variables)
        return ("let", bound, made, self.alternatives(mode, [bound], rows))
