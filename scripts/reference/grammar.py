"""The grammar, by recursive descent that goes back where a form doesn't match.

Expressions: (literal, VALUE) (text, NUMBERS) (name, TEXT, TOKEN) (parentheses, E) (application, E, ES) (infix, PARTS) (left section, E,
OPERATOR) (right section, OPERATOR, E) (list, ES) (range, FUNCTION, ES) (comprehension, E, QUALIFIERS) (lambda, PATTERNS, E, TOKEN)
(let, DECLARATIONS, E) (if, E, E, E) (case, MODE, E, ALTERNATIVES) (guards, PAIRS). A VALUE is (integer, N) or (character, N); PARTS are
expressions, (operator, TOKEN) and (minus, TOKEN).

Patterns: (variable, TOKEN) (wildcard, TOKEN) (alias, TOKEN, P) (literal, VALUE) (constructor, TEXT, PS, TOKEN) (infix, PARTS).

Types: (variable, TEXT) (function, T, T) (constructor, TEXT, TS).

Declarations: (free, TOKENS) (signature, TOKENS, T) (function, TOKEN, PATTERNS, E) (pattern, P, E, TOKEN).
Items are these and (import, MODULE, IS_QUALIFIED, ALIAS, IS_HIDING, ENTITIES) (fixity, SIDE, LEVEL, TEXTS) (data, TEXT, PARAMETERS,
CONSTRUCTORS) (synonym, TEXT, PARAMETERS, T). ENTITIES are triples of what is named (function, type, module), its text, and what stands in
parentheses after it: None, "all" or texts.
"""

import re

from . import Refused
from .layout import laid_out
from .tokens import Token, tokens

LOWEST_LEVEL = 9
QUALIFIER = re.compile(r"(?:[A-Z][A-Za-z0-9_']*\.)*")
NOT_NAMES = ("character", "text", "end")


def unqualified(text):
    return text[QUALIFIER.match(text).end() :]


def is_constructor_operator(token):
    """Whether an operator, or a name in backquotes, is that of a constructor."""
    if token.kind in ("operator", "qualified operator"):
        return unqualified(token.text).startswith(":")
    return token.kind in ("constructor", "qualified constructor")


def list_of(patterns, token):
    """A pattern of a list."""
    whole = ("constructor", "[]", [], token)
    for part in reversed(patterns):
        whole = ("constructor", ":", [part, whole], token)
    return whole


def tuple_name(size):
    return "(" + "," * (size - 1) + ")"


class Cursor:
    """A place among tokens."""

    def __init__(self, found):
        self.tokens, self.at = found, 0

    def peek(self):
        return self.tokens[self.at] if self.at < len(self.tokens) else Token("end", "", 0, 0)

    def next(self):
        token = self.peek()
        self.at += 1
        return token

    def is_at(self, text):
        return self.peek().text == text and self.peek().kind not in NOT_NAMES

    def fail(self):
        raise Refused(f"syntax at {self.peek()}")

    def take(self, text):
        if not self.is_at(text):
            self.fail()
        return self.next()

    def skips(self, text):
        if self.is_at(text):
            self.at += 1
            return True
        return False

    def take_kind(self, *kinds):
        if self.peek().kind not in kinds:
            self.fail()
        return self.next()

    def tried(self, form, *given):
        """What a form gives, or None, where it doesn't match, at the same place as before."""
        start = self.at
        try:
            return form(*given)
        except Refused:
            self.at = start
            return None

    def first(self, *forms):
        for form in forms[:-1]:
            found = self.tried(form)
            if found is not None:
                return found
        return forms[-1]()

    def separated(self, form, mark):
        found = [form()]
        while True:
            start = self.at
            part = self.tried(form) if self.skips(mark) else None
            if part is None:
                self.at = start
                return found
            found.append(part)

    def many(self, form):
        found = []
        while (part := self.tried(form)) is not None:
            found.append(part)
        return found

    def block(self, form):
        self.take("{")
        found = []
        while not self.is_at("}"):
            if not self.skips(";"):
                found.append(form())
                if not self.is_at("}"):
                    self.take(";")
        self.take("}")
        return found


class Names(Cursor):
    def operator(self, may_be_qualified=True):
        token = self.peek()
        if token.kind == "operator" or (may_be_qualified and token.kind == "qualified operator"):
            return self.next()
        self.take("`")
        names = ("variable", "constructor", "qualified variable", "qualified constructor")
        token = self.take_kind(*(names if may_be_qualified else names[:2]))
        self.take("`")
        return token

    def operator_of(self, is_of_constructor):
        token = self.operator(False)
        if is_constructor_operator(token) != is_of_constructor:
            self.fail()
        return token

    def variable(self):
        if self.skips("("):
            token = self.operator_of(False)
            self.take(")")
            return token
        return self.take_kind("variable")


class Types(Names):
    def type(self):
        *parameters, whole = self.separated(self.applied_type, "->")
        for parameter in reversed(parameters):
            whole = ("function", parameter, whole)
        return whole

    def applied_type(self):
        if self.peek().kind in ("constructor", "qualified constructor"):
            return ("constructor", self.next().text, self.many(self.single_type))
        return self.single_type()

    def single_type(self):
        token = self.next()
        if token.kind in ("constructor", "qualified constructor"):
            return ("constructor", token.text, [])
        if token.kind == "variable":
            return ("variable", token.text)
        if token.text == "(" and self.skips(")"):
            return ("constructor", "()", [])
        if token.text == "(":
            parts = self.separated(self.type, ",")
            self.take(")")
            return parts[0] if len(parts) == 1 else ("constructor", tuple_name(len(parts)), parts)
        if token.text == "[":
            element = self.type()
            self.take("]")
            return ("constructor", "[]", [element])
        self.fail()


class Patterns(Types):
    def pattern(self):
        parts = [self.operand_pattern()]
        while (further := self.tried(self.further_pattern)) is not None:
            parts += further
        return parts[0] if len(parts) == 1 else ("infix", parts)

    def further_pattern(self):
        return [("operator", self.operator_of(True)), self.operand_pattern()]

    def operand_pattern(self):
        token = self.peek()
        if self.skips("-"):
            return ("literal", ("integer", -self.take_kind("integer").value))
        if token.kind in ("constructor", "qualified constructor"):
            self.next()
            return ("constructor", token.text, self.many(self.single_pattern), token)
        return self.single_pattern()

    def single_pattern(self):
        token = self.next()
        match token.kind:
            case "variable" if self.skips("@"):
                return ("alias", token, self.single_pattern())
            case "variable":
                return ("variable", token)
            case "constructor" | "qualified constructor":
                return ("constructor", token.text, [], token)
            case "integer" | "character":
                return ("literal", (token.kind, token.value))
            case "text":
                return list_of([("literal", ("character", number)) for number in token.value], token)
            case "mark":
                return self.marked_pattern(token)
        self.fail()

    def marked_pattern(self, token):
        if token.text == "_":
            return ("wildcard", token)
        if token.text == "[":
            parts = [] if self.is_at("]") else self.separated(self.pattern, ",")
            self.take("]")
            return list_of(parts, token)
        if token.text != "(":
            self.fail()
        if self.skips(")"):
            return ("constructor", "()", [], token)
        parts = self.separated(self.pattern, ",")
        self.take(")")
        return parts[0] if len(parts) == 1 else ("constructor", tuple_name(len(parts)), parts, token)


class Expressions(Patterns):
    def expression(self):
        parts = self.signed_operand()
        while (further := self.tried(self.further_operand)) is not None:
            parts += further
        return parts[0] if len(parts) == 1 else ("infix", parts)

    def signed_operand(self):
        sign = [("minus", self.next())] if self.is_at("-") else []
        return [*sign, self.operand()]

    def further_operand(self):
        return [("operator", self.operator()), *self.signed_operand()]

    def operand(self):
        token = self.peek()
        if token.kind == "reserved" and self.skips("\\"):
            patterns = self.many(self.single_pattern)
            self.take("->")
            return ("lambda", patterns, self.expression(), token)
        if token.kind == "keyword":
            return self.keyword_expression()
        head, *arguments = [self.single(), *self.many(self.single)]
        return ("application", head, arguments) if arguments else head

    def keyword_expression(self):
        word = self.next().text
        if word == "let":
            declarations = self.block(self.declaration)
            self.take("in")
            return ("let", declarations, self.expression())
        if word == "if":
            condition = self.expression()
            self.take("then")
            then = self.expression()
            self.take("else")
            return ("if", condition, then, self.expression())
        if word in ("case", "fcase"):
            examined = self.expression()
            self.take("of")
            return ("case", "Rigid" if word == "case" else "Flex", examined, self.block(self.alternative))
        self.fail()

    def alternative(self):
        return (self.pattern(), self.right_side("->"))

    def right_side(self, arrow):
        if self.is_at("|"):
            guards = []
            while self.skips("|"):
                condition = self.expression()
                self.take(arrow)
                guards.append((condition, self.expression()))
            body = ("guards", guards)
        else:
            self.take(arrow)
            body = self.expression()
        return ("let", self.block(self.declaration), body) if self.skips("where") else body

    def single(self):
        token = self.next()
        match token.kind:
            case "integer" | "character":
                return ("literal", (token.kind, token.value))
            case "text":
                return ("text", token.value)
            case "variable" | "qualified variable" | "constructor" | "qualified constructor":
                return ("name", token.text, token)
            case "mark" if token.text == "(":
                return self.in_parentheses(token)
            case "mark" if token.text == "[":
                return self.in_brackets(token)
        self.fail()

    def in_parentheses(self, token):
        if self.skips(")"):
            return ("name", "()", token)
        commas = 0
        while self.skips(","):
            commas += 1
        if commas:
            self.take(")")
            return ("name", tuple_name(commas + 1), token)
        return self.first(self.operator_alone, self.right_section, lambda: self.parts_in_parentheses(token))

    def operator_alone(self):
        operator = self.operator()
        self.take(")")
        return ("name", operator.text, operator)

    def right_section(self):
        operator = self.operator()
        if operator.text == "-":
            self.fail()
        operand = self.expression()
        self.take(")")
        return ("right section", operator, operand)

    def ending_operator(self):
        operator = self.operator()
        self.take(")")
        return operator

    def parts_in_parentheses(self, token):
        first = self.expression()
        operator = self.tried(self.ending_operator)
        if operator:
            return ("left section", first, operator)
        parts = [first, *(self.separated(self.expression, ",") if self.skips(",") else [])]
        self.take(")")
        if len(parts) == 1:
            return ("parentheses", first)
        return ("application", ("name", tuple_name(len(parts)), token), parts)

    def in_brackets(self, token):
        if self.skips("]"):
            return ("name", "[]", token)
        parts = [self.expression()]
        if self.skips("|"):
            qualifiers = self.separated(self.qualifier, ",")
            self.take("]")
            return ("comprehension", parts[0], qualifiers)
        while self.skips(","):
            parts.append(self.expression())
        if not self.skips(".."):
            self.take("]")
            return ("list", parts)
        function = "enumFrom" if len(parts) == 1 else "enumFromThen"
        if not self.is_at("]"):
            parts.append(self.expression())
            function += "To"
        self.take("]")
        return ("range", function, parts)

    def qualifier(self):
        return self.first(self.generator, self.local_qualifier, lambda: ("condition", self.expression()))

    def generator(self):
        token, pattern = self.peek(), self.pattern()
        self.take("<-")
        return ("generator", pattern, self.expression(), token)

    def local_qualifier(self):
        self.take("let")
        declarations = self.block(self.declaration)
        if self.is_at("in"):
            self.fail()
        return ("local", declarations)


class Parser(Expressions):
    def declaration(self):
        return self.first(self.free, self.signature, lambda: self.rule(True))

    def free(self):
        variables = self.separated(lambda: self.take_kind("variable"), ",")
        self.take("free")
        return ("free", variables)

    def signature(self):
        variables = self.separated(self.variable, ",")
        self.take("::")
        return ("signature", variables, self.type())

    def rule(self, is_local=False):
        forms = [self.infix_left_side, self.left_side_in_parentheses, self.prefix_left_side]
        left = self.first(*forms, self.pattern_left_side if is_local else self.fail)
        right = self.right_side("=")
        return (*left, right) if left[0] == "function" else ("pattern", left[1], right, left[2])

    def infix_left_side(self):
        first, operator = self.pattern(), self.operator_of(False)
        return ("function", operator, [first, self.pattern()])

    def left_side_in_parentheses(self):
        self.take("(")
        left = self.first(self.infix_left_side, self.left_side_in_parentheses)
        self.take(")")
        further = self.many(self.single_pattern)
        if not further:
            self.fail()
        return ("function", left[1], left[2] + further)

    def prefix_left_side(self):
        name, patterns = self.variable(), self.many(self.single_pattern)
        if not (self.is_at("=") or self.is_at("|")):
            self.fail()
        return ("function", name, patterns)

    def pattern_left_side(self):
        token, pattern = self.peek(), self.pattern()
        if not self.is_at("="):
            self.fail()
        return ("pattern", pattern, token)

    def item(self):
        if self.skips("import"):
            return self.imported()
        word = self.peek().text if self.peek().kind == "keyword" else ""
        if word in ("infixl", "infixr", "infix"):
            self.next()
            level = self.next().value if self.peek().kind == "integer" else LOWEST_LEVEL
            return ("fixity", word, level, [token.text for token in self.separated(lambda: self.operator(False), ",")])
        if word in ("data", "newtype", "type"):
            self.next()
            name, parameters = self.take_kind("constructor").text, [token.text for token in self.many(lambda: self.take_kind("variable"))]
            if word == "type":
                self.take("=")
                return ("synonym", name, parameters, self.type())
            return ("data", name, parameters, self.separated(self.constructor, "|") if self.skips("=") else [])
        return self.first(self.signature, self.rule)

    def constructor(self):
        return self.first(self.infix_constructor, self.prefix_constructor)

    def infix_constructor(self):
        first, operator = self.applied_type(), self.operator_of(True)
        return (operator.text, [first, self.applied_type()])

    def prefix_constructor(self):
        if self.skips("("):
            name = self.operator_of(True).text
            self.take(")")
        else:
            name = self.take_kind("constructor").text
        return (name, self.many(self.single_type))

    def imported(self):
        is_qualified = self.skips("qualified")
        name = self.next().text
        alias = self.next().text if self.skips("as") else name
        is_hiding = self.skips("hiding")
        return ("import", name, is_qualified, alias, is_hiding, self.entities() if self.is_at("(") else None)

    def entities(self):
        self.take("(")
        found = [] if self.is_at(")") else self.separated(self.entity, ",")
        self.take(")")
        return found

    def entity(self):
        if self.skips("module"):
            return ("module", self.next().text, None)
        if self.skips("("):
            operator = self.operator()
            self.take(")")
            return ("function", operator.text, None)
        token = self.next()
        if token.kind not in ("constructor", "qualified constructor"):
            return ("function", token.text, None)
        return ("type", token.text, self.constructors() if self.skips("(") else None)

    def constructors(self):
        if self.skips(".."):
            self.take(")")
            return "all"
        names = [] if self.is_at(")") else [token.text for token in self.separated(lambda: self.take_kind("constructor"), ",")]
        self.take(")")
        return names

    def module(self):
        name, exports = None, None
        if self.skips("module"):
            name = self.next().text
            exports = self.entities() if self.is_at("(") else None
            self.take("where")
        return name, exports, self.ended(self.block(self.item))

    def goal(self):
        goal, variables = self.expression(), []
        if self.skips("where"):
            variables = [token for _, found in self.block(self.free) for token in found]
        return self.ended((goal, variables))

    def ended(self, found):
        if self.at != len(self.tokens):
            self.fail()
        return found


def module(text):
    """The name in the header, the entities that it exports, and the items."""
    return Parser(laid_out(tokens(text), True)).module()


def goal(text):
    """An expression and the tokens of its free variables."""
    return Parser(laid_out(tokens(text), False)).goal()
