"""Translation of rules to terms.

Terms: (variable, N) (literal, VALUE) (call, HEAD, TERMS) (apply, T, T) (case, MODE, T, ALTERNATIVES) (block, NUMBERS, BINDINGS, T).
A HEAD is (function, QNAME), (constructor, QNAME), (set, N, QNAME) or (local, NUMBER), a local function of the rule's function. Variables
have numbers. A BINDING is a variable and its term; ALTERNATIVES are pairs of a pattern and a term.

Patterns: (variable, N) (alias, N, P) (literal, VALUE) (constructor, QNAME, PS).
"""

import dataclasses

from . import Refused, grammar
from .modules import UNDECLARED, prelude

PREFIX_MINUS = ("infixl", 6)
LAST = (1 << 30, 0)


def grouped(parts, fixity):
    """Parts of an infix expression as a tree: a part, (operator, TOKEN, TREE, TREE) or (minus, TREE)."""
    signs = [(place, fixity(part[1]) if part[0] == "operator" else PREFIX_MINUS) for place, part in enumerate(parts) if is_sign(part)]
    if not signs:
        return parts[0]
    lowest = min(level for _, (_, level) in signs)
    sides = [(place, side) for place, (side, level) in signs if level == lowest]
    kinds = {side for _, side in sides}
    if len(sides) > 1 and kinds not in ({"infixl"}, {"infixr"}):
        raise Refused("operators that can't stand side by side")
    place = sides[0][0] if kinds == {"infixr"} else sides[-1][0]
    if parts[place][0] == "minus":
        if place:
            raise Refused("a minus after an operator")
        return ("minus", grouped(parts[1:], fixity))
    return ("operator", parts[place][1], grouped(parts[:place], fixity), grouped(parts[place + 1 :], fixity))


def is_sign(part):
    return part[0] in ("operator", "minus") and len(part) == 2 and hasattr(part[1], "column")


def without_parentheses(expression):
    while expression[0] == "parentheses":
        expression = expression[1]
    return expression


@dataclasses.dataclass
class Local:
    """A local function: its place in the text, its rules, and its declared type."""

    place: tuple
    arity: int
    rules: list = dataclasses.field(default_factory=list)
    declared: object = None


class Translator:
    """Translates the rules of one function. Scopes are dicts from names to (variable, N) and (local, N)."""

    def __init__(self, program, module):
        self.program, self.module = program, module
        self.places, self.locals = [], []

    def variable(self, place):
        self.places.append(place)
        return len(self.places) - 1

    def local(self, place, arity):
        self.locals.append(Local(place, arity))
        return len(self.locals) - 1

    # Names

    def head(self, name, scope):
        return scope[name] if name in scope else self.module.entity(name)

    def fixity(self, token, scope):
        return UNDECLARED if token.text in scope else self.program.fixity(self.module, token.text)

    def applied(self, head, arguments):
        if head[0] != "variable":
            return ("call", head, arguments)
        whole = head
        for argument in arguments:
            whole = ("apply", whole, argument)
        return whole

    def built_in(self, name, *arguments):
        return ("call", ("function", prelude(name)), list(arguments))

    def constructed(self, name, *arguments):
        return ("call", ("constructor", prelude(name)), list(arguments))

    def list(self, parts, end=None):
        whole = end or self.constructed("[]")
        for part in reversed(parts):
            whole = self.constructed(":", part, whole)
        return whole

    def conditional(self, condition, then, otherwise):
        truth = [("constructor", prelude(name), []) for name in ("True", "False")]
        return ("case", "Rigid", condition, [(truth[0], then), (truth[1], otherwise)])

    # Patterns

    def pattern(self, pattern, scope):
        """A pattern, whose variables are put into the scope."""
        match pattern:
            case ("variable", token):
                scope[token.text] = ("variable", self.variable(token.place))
                return scope[token.text]
            case ("wildcard", token):
                return ("variable", self.variable(token.place))
            case ("alias", token, inner):
                scope[token.text] = ("variable", self.variable(token.place))
                return ("alias", scope[token.text][1], self.pattern(inner, scope))
            case ("literal", _):
                return pattern
            case ("constructor", name, parts, _):
                _, constructor = self.module.entity(name)
                return ("constructor", constructor, [self.pattern(part, scope) for part in parts])
            case ("infix", parts):
                return self.grouped_pattern(grouped(parts, lambda token: self.program.fixity(self.module, token.text)), scope)

    def grouped_pattern(self, tree, scope):
        if tree[0] != "operator":
            return self.pattern(tree, scope)
        _, constructor = self.module.entity(tree[1].text)
        return ("constructor", constructor, [self.grouped_pattern(part, scope) for part in tree[2:]])

    # Expressions

    def term(self, expression, scope):
        match expression:
            case ("parentheses", inner):
                return self.term(inner, scope)
            case ("literal", _):
                return expression
            case ("text", numbers):
                return self.list([("literal", ("character", number)) for number in numbers])
            case ("list", parts):
                return self.list(self.terms(parts, scope))
            case ("name", _, _):
                return self.application(expression, [], scope)
            case ("application", head, arguments):
                return self.application(head, arguments, scope)
            case ("infix", parts):
                return self.grouped_term(grouped(parts, lambda token: self.fixity(token, scope)), scope)
            case ("left section", operand, operator):
                return self.applied(self.head(operator.text, scope), [self.term(operand, scope)])
            case ("right section", operator, operand):
                return self.built_in("flip", self.applied(self.head(operator.text, scope), []), self.term(operand, scope))
            case ("range", function, parts):
                return self.built_in(function, *self.terms(parts, scope))
            case ("comprehension", element, qualifiers):
                return self.comprehension(element, qualifiers, scope)
        return self.distinction(expression, scope)

    def distinction(self, expression, scope):
        match expression:
            case ("if", condition, then, otherwise):
                return self.conditional(*self.terms([condition, then, otherwise], scope))
            case ("guards", guards):
                whole = self.built_in("failed")
                for condition, term in reversed([self.terms(guard, scope) for guard in guards]):
                    whole = self.conditional(condition, term, whole)
                return whole
            case ("case", mode, examined, alternatives):
                return ("case", mode, self.term(examined, scope), [self.alternative(*each, scope) for each in alternatives])
            case ("lambda", patterns, body, token):
                return self.function_of(token.place, patterns, lambda inner: self.term(body, inner), scope)
            case ("let", declarations, body):
                return self.block(declarations, lambda inner: self.term(body, inner), scope)

    def terms(self, expressions, scope):
        return [self.term(expression, scope) for expression in expressions]

    def alternative(self, pattern, body, scope):
        inner = dict(scope)
        translated = self.pattern(pattern, inner)
        return (translated, self.term(body, inner))

    def application(self, head, arguments, scope):
        head = without_parentheses(head)
        if head[0] != "name":
            whole = self.term(head, scope)
            for argument in self.terms(arguments, scope):
                whole = ("apply", whole, argument)
            return whole
        meant = self.head(head[1], scope)
        if meant[0] != "set":
            return self.applied(meant, self.terms(arguments, scope))
        _, function = self.head(without_parentheses(arguments[0])[1], scope)
        return ("call", ("set", meant[1], function), self.terms(arguments[1:], scope))

    def grouped_term(self, tree, scope):
        if tree[0] == "operator" and len(tree) > 2:
            return self.applied(self.head(tree[1].text, scope), [self.grouped_term(part, scope) for part in tree[2:]])
        if tree[0] != "minus":
            return self.term(tree, scope)
        operand = without_parentheses(tree[1])
        if operand[0] == "literal" and operand[1][0] == "integer":
            return ("literal", ("integer", -operand[1][1]))
        return self.built_in("negate", self.grouped_term(tree[1], scope))

    def function_of(self, place, patterns, body, scope):
        """A local function with one rule, as a value."""
        number, inner = self.local(place, len(patterns)), dict(scope)
        translated = [self.pattern(pattern, inner) for pattern in patterns]
        self.locals[number].rules.append((translated, body(inner)))
        return ("call", ("local", number), [])

    def comprehension(self, element, qualifiers, scope):
        if not qualifiers:
            return self.list([self.term(element, scope)])
        first, *rest = qualifiers
        goes_on = lambda inner: self.comprehension(element, rest, inner)
        match first:
            case ("condition", condition):
                return self.conditional(self.term(condition, scope), goes_on(scope), self.constructed("[]"))
            case ("local", declarations):
                return self.block(declarations, goes_on, scope)
            case ("generator", pattern, source, token):
                translated = self.term(source, scope)
                return self.built_in("concatMap", self.generator(pattern, token, goes_on, scope), translated)

    def generator(self, pattern, token, goes_on, scope):
        if pattern[0] == "variable":
            return self.function_of(token.place, [pattern], goes_on, scope)
        number, element, inner = self.local(token.place, 1), self.variable(token.place), dict(scope)
        alternatives = [(self.pattern(pattern, inner), goes_on(inner)), (("variable", self.variable(LAST)), self.constructed("[]"))]
        self.locals[number].rules.append(([("variable", element)], ("case", "Rigid", ("variable", element), alternatives)))
        return ("call", ("local", number), [])

    # Blocks

    def block(self, declarations, body, scope):
        inner, variables, bindings, rules = dict(scope), [], [], []
        for declaration in declarations:
            match declaration:
                case ("free", tokens):
                    for token in tokens:
                        inner[token.text] = ("variable", self.variable(token.place))
                        variables.append(inner[token.text][1])
                case ("function", token, [], definition) | ("pattern", ("variable", token), definition, _):
                    inner[token.text] = ("variable", self.variable(token.place))
                    bindings.append((inner[token.text][1], definition))
                case ("function", token, patterns, _):
                    if not any(token.text == other[1].text for other in rules):
                        inner[token.text] = ("local", self.local(token.place, len(patterns)))
                    rules.append(declaration)
                case ("pattern", pattern, definition, token):
                    bindings += self.parts(pattern, definition, token, inner)
        self.local_rules(rules, declarations, inner)
        terms = [(variable, term if term[0] == "call" else self.term(term, inner)) for variable, term in bindings]
        return ("block", variables, terms, body(inner))

    def parts(self, pattern, definition, token, scope):
        """A binding for a whole value, and one for each variable of its pattern."""
        whole, names = self.variable(token.place), {}
        bindings = [(whole, definition)]
        self.names_in(pattern, names)
        for name, place in names.items():
            scope[name] = ("variable", self.variable(place))
            number, inner = self.local(place, 1), {}
            translated = self.pattern(pattern, inner)
            self.locals[number].rules.append(([translated], inner[name]))
            bindings.append((scope[name][1], ("call", ("local", number), [("variable", whole)])))
        return bindings

    def names_in(self, pattern, names):
        match pattern:
            case ("variable", token):
                names[token.text] = token.place
            case ("alias", token, inner):
                names[token.text] = token.place
                self.names_in(inner, names)
            case ("constructor", _, parts, _) | ("infix", parts):
                for part in parts:
                    if not is_sign(part):
                        self.names_in(part, names)

    def local_rules(self, rules, declarations, scope):
        for _, token, patterns, definition in rules:
            local, inner = self.locals[scope[token.text][1]], dict(scope)
            translated = [self.pattern(pattern, inner) for pattern in patterns]
            local.rules.append((translated, self.term(definition, inner)))
            for declaration in declarations:
                if declaration[0] == "signature" and token.text in [named.text for named in declaration[1]]:
                    local.declared = self.module.type(declaration[2])

    # Functions

    def rules(self, declarations):
        return [self.top_rule(patterns, body) for _, _, patterns, body in declarations]

    def top_rule(self, patterns, body):
        scope = {}
        translated = [self.pattern(pattern, scope) for pattern in patterns]
        return (translated, self.term(body, scope))

    def goal(self, text):
        """The names of a goal's variables, and its rule."""
        expression, tokens = grammar.goal(text)
        variables = [self.variable(token.place) for token in tokens]
        scope = {token.text: ("variable", variable) for token, variable in zip(tokens, variables)}
        return [token.text for token in tokens], ([("variable", variable) for variable in variables], self.term(expression, scope))
