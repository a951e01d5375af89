"""Types by Damas and Milner, group by group of functions that call one another.

A type is a `Variable` or a pair of its head and its arguments: a head is "->" or the QNAME of a data type.
"""

import dataclasses

from . import Refused
from .modules import prelude


@dataclasses.dataclass(eq=False)
class Variable:
    """A type that isn't known yet, or what it has been found to be."""

    found: object = None


def known(type):
    while isinstance(type, Variable) and type.found is not None:
        type = type.found
    return type


def occurs(variable, type):
    type = known(type)
    return type is variable or (not isinstance(type, Variable) and any(occurs(variable, part) for part in type[1]))


def unify(left, right):
    left, right = known(left), known(right)
    if left is right:
        return
    if isinstance(right, Variable):
        left, right = right, left
    if isinstance(left, Variable):
        if occurs(left, right):
            raise Refused("a type that contains itself")
        left.found = right
        return
    if left[0] != right[0] or len(left[1]) != len(right[1]):
        raise Refused(f"{left[0]} and {right[0]} in one place")
    for part, other in zip(left[1], right[1]):
        unify(part, other)


def function(parameters, result):
    for parameter in reversed(parameters):
        result = ("->", (parameter, result))
    return result


def simple(name):
    return (prelude(name), ())


INT, CHAR, BOOL = simple("Int"), simple("Char"), simple("Bool")
OPERATIONS = {
    **dict.fromkeys(("+", "-", "*", "div", "mod"), function([INT, INT], INT)),
    **dict.fromkeys(("<", "<=", ">", ">="), function([INT, INT], BOOL)),
    "&": function([BOOL, BOOL], BOOL),
    "ord": function([CHAR], INT),
    "chr": function([INT], CHAR),
}


def of_written(type, variables):
    """The type that a written one stands for, with variables by their names."""
    match type:
        case ("variable", name):
            return variables.setdefault(name, Variable())
        case ("function", parameter, result):
            return ("->", (of_written(parameter, variables), of_written(result, variables)))
        case ("constructor", name, arguments):
            return (name, tuple(of_written(argument, variables) for argument in arguments))


def instance(type, variables):
    type = known(type)
    if isinstance(type, Variable):
        return variables.setdefault(type, Variable())
    return (type[0], tuple(instance(part, variables) for part in type[1]))


def mentioned(term):
    """The functions that a term mentions."""
    match term:
        case ("whole", head, arguments) | ("partial", head, arguments, _):
            found = {head[-1]} if head[0] in ("function", "set") else set()
            return found.union(*map(mentioned, arguments))
        case ("apply", function, argument):
            return mentioned(function) | mentioned(argument)
        case ("let", _, definition, body):
            return mentioned(definition) | mentioned(body)
        case ("free", _, body):
            return mentioned(body)
        case ("case", _, examined, alternatives):
            return mentioned(examined).union(*(mentioned(body) for _, body in alternatives))
    return set()


class Groups:
    """The strongly connected components of the functions, each after those that it mentions (Tarjan)."""

    def __init__(self, program):
        self.edges = {name: set().union(*(mentioned(body) for _, body in each.rules)) for name, each in program.functions.items()}
        self.numbers, self.lowest, self.stack, self.found = {}, {}, [], []
        for name in self.edges:
            if name not in self.numbers:
                self.visit(name)

    def visit(self, name):
        self.numbers[name] = self.lowest[name] = len(self.numbers)
        self.stack.append(name)
        for other in self.edges[name]:
            if other not in self.numbers:
                self.visit(other)
            if other in self.stack:
                self.lowest[name] = min(self.lowest[name], self.lowest[other])
        if self.lowest[name] == self.numbers[name]:
            place = self.stack.index(name)
            self.found.append(self.stack[place:])
            del self.stack[place:]


class Inference:
    """The types of a lifted program's functions, by their names."""

    def __init__(self, program):
        self.program, self.types, self.own = program, {}, {}
        for group in Groups(program).found:
            self.infer(group)

    def infer(self, group):
        self.own = {name: Variable() for name in group}
        for name in group:
            if self.program.functions[name].is_built_in:
                self.own[name].found = self.built_in(name[1])
        for name in group:
            for patterns, body in self.program.functions[name].rules:
                variables = {}
                parameters = [self.pattern(pattern, variables) for pattern in patterns]
                unify(self.own[name], function(parameters, self.term(body, variables)))
            self.keep_declared(self.program.functions[name])
        self.types |= self.own

    @staticmethod
    def built_in(name):
        if name == "failed":
            return Variable()
        if name in ("==", "=:="):
            side = Variable()
            return function([side, side], BOOL)
        return OPERATIONS[name]

    def keep_declared(self, declaring):
        if declaring.declared:
            type = known(self.own[declaring.name])
            for _ in range(declaring.captured):
                type = known(type[1][1])
            unify(type, of_written(self.program.expanded(declaring.declared), {}))

    def of_function(self, name):
        using = self.program.functions[name]
        if using.declared and not using.captured:
            return of_written(self.program.expanded(using.declared), {})
        return self.own[name] if name in self.own else instance(self.types[name], {})

    def of_constructor(self, name):
        constructor, variables = self.program.constructors[name], {}
        parameters = tuple(variables.setdefault(parameter, Variable()) for parameter in constructor.parameters)
        arguments = [of_written(self.program.expanded(argument), variables) for argument in constructor.arguments]
        return function(arguments, (constructor.type, parameters))

    def of_set(self, size, name):
        type, parameters = self.of_function(name), []
        for _ in range(size):
            parameter, type = known(type)[1]
            parameters.append(parameter)
        return function(parameters, (("SetFunctions", "Values"), (type,)))

    def of_head(self, head):
        match head:
            case ("constructor", name):
                return self.of_constructor(name)
            case ("set", size, name):
                return self.of_set(size, name)
            case ("function", name):
                return self.of_function(name)

    def applied(self, type, arguments):
        for argument in arguments:
            result = Variable()
            unify(type, function([argument], result))
            type = result
        return type

    @staticmethod
    def literal(value):
        return INT if value[0] == "integer" else CHAR

    def pattern(self, pattern, variables):
        match pattern:
            case ("variable", number):
                return variables.setdefault(number, Variable())
            case ("alias", number, inner):
                variables[number] = self.pattern(inner, variables)
                return variables[number]
            case ("literal", value):
                return self.literal(value)
            case ("constructor", name, parts):
                return self.applied(self.of_constructor(name), [self.pattern(part, variables) for part in parts])

    def term(self, term, variables):
        match term:
            case ("variable", number):
                return variables[number]
            case ("literal", value):
                return self.literal(value)
            case ("whole", head, arguments) | ("partial", head, arguments, _):
                return self.applied(self.of_head(head), [self.term(argument, variables) for argument in arguments])
            case ("apply", function, argument):
                return self.applied(self.term(function, variables), [self.term(argument, variables)])
            case ("let", number, definition, body):
                inner = {**variables, number: Variable()}
                unify(inner[number], self.term(definition, inner))
                return self.term(body, inner)
            case ("free", number, body):
                return self.term(body, {**variables, number: Variable()})
            case ("case", _, examined, alternatives):
                return self.alternatives(self.term(examined, variables), alternatives, variables)

    def alternatives(self, examined, alternatives, variables):
        result = Variable()
        for pattern, body in alternatives:
            inner = dict(variables)
            unify(self.pattern(pattern, inner), examined)
            unify(self.term(body, inner), result)
        return result
