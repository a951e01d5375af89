"""Tokens.

Kinds: variable, constructor, qualified variable, qualified constructor, keyword, operator, qualified operator, reserved, mark, integer,
character, text, and layout for what the layout puts in.
"""

import dataclasses
import re

from . import Refused

KEYWORDS = {
    *("case", "data", "do", "else", "external", "fcase", "foreign", "free", "if", "import", "in"),
    *("infix", "infixl", "infixr", "let", "module", "newtype", "of", "then", "type", "where"),
}
RESERVED = {"..", "::", "=", "\\", "|", "<-", "->", "@", "~"}
NAME = re.compile(r"_*[a-z][A-Za-z0-9_']*")
CAPITAL = re.compile(r"[A-Z][A-Za-z0-9_']*")
SYMBOLS = re.compile(r"[~!@#$%^&*+\-=<>?./|\\:]+")
DASHES = re.compile(r"--+")
INTEGER = re.compile(r"0x[0-9a-fA-F]+|0o[0-7]+|0b[01]+|\d+")
ESCAPES = {"n": 10, "t": 9, "r": 13, "a": 7, "b": 8, "f": 12, "v": 11, "\\": 92, "'": 39, '"': 34}
NUMBERS = ((re.compile(r"(\d+)"), 10), (re.compile(r"x([0-9a-fA-F]+)"), 16), (re.compile(r"o([0-7]+)"), 8))
TAB = 8
FIRST_PRINTED, DELETE = 32, 127


@dataclasses.dataclass(frozen=True)
class Token:
    kind: str
    text: str
    line: int
    column: int
    value: object = None

    @property
    def place(self):
        return self.line, self.column


class Lexer:
    """Reads a text from its start."""

    def __init__(self, text):
        self.text, self.at, self.line, self.column = text.removeprefix("\ufeff"), 0, 1, 1
        self.found = []

    def tokens(self):
        while self.at < len(self.text):
            if not self.is_skipped():
                self.read()
        return self.found

    def move(self, end):
        """Goes on to a place, by lines and columns."""
        for sign in self.text[self.at : end]:
            if sign == "\n":
                self.line, self.column = self.line + 1, 1
            elif sign == "\t":
                self.column = (self.column - 1) // TAB * TAB + TAB + 1
            else:
                self.column += 1
        self.at = end

    def add(self, kind, end, value=None):
        self.found.append(Token(kind, self.text[self.at : end], self.line, self.column, value))
        self.move(end)

    def is_skipped(self):
        """Whether white space or a comment stands here, which is passed over."""
        if self.text[self.at] in " \t\r\n\f":
            self.move(self.at + 1)
            return True
        if self.text.startswith("{-", self.at):
            self.move(self.end_of_comment())
            return True
        run = SYMBOLS.match(self.text, self.at)
        if run and DASHES.fullmatch(run.group()):
            end = self.text.find("\n", self.at)
            self.move(len(self.text) if end < 0 else end)
            return True
        return False

    def end_of_comment(self):
        depth, at = 0, self.at
        for part in re.compile(r"\{-|-\}").finditer(self.text, self.at):
            if part.start() >= at:
                depth, at = depth + (1 if part.group() == "{-" else -1), part.end()
                if depth == 0:
                    return at
        raise Refused(f"a comment without its end at {self.line}:{self.column}")

    def read(self):
        run, capital = SYMBOLS.match(self.text, self.at), CAPITAL.match(self.text, self.at)
        name, integer = NAME.match(self.text, self.at), INTEGER.match(self.text, self.at)
        if run:
            self.add("reserved" if run.group() in RESERVED else "operator", run.end())
        elif capital:
            self.add(*self.qualified(capital))
        elif name:
            self.add("keyword" if name.group() in KEYWORDS else "variable", name.end())
        elif integer:
            self.integer(integer)
        elif self.text[self.at] in "()[]{},;`_":
            self.add("mark", self.at + 1)
        else:
            self.quoted()

    def qualified(self, capital):
        """The kind and the end of the longest name that begins with these letters."""
        kind, end = "constructor", capital.end()
        while self.text.startswith(".", end):
            further, name, run = (pattern.match(self.text, end + 1) for pattern in (CAPITAL, NAME, SYMBOLS))
            if further:
                kind, end = "qualified constructor", further.end()
                continue
            if name and name.group() not in KEYWORDS:
                return "qualified variable", name.end()
            if run and run.group() not in RESERVED and not DASHES.fullmatch(run.group()):
                return "qualified operator", run.end()
            break
        return kind, end

    def integer(self, found):
        if found.group().isdigit() and re.match(r"\.\d", self.text[found.end() :]):
            raise Refused(f"a number with a point at {self.line}:{self.column}")
        digits = found.group()
        self.add("integer", found.end(), int(digits) if digits.isdigit() else int(digits, 0))

    def quoted(self):
        quote = self.text[self.at]
        if quote not in "'\"":
            raise Refused(f"no token begins at {self.line}:{self.column}")
        values, at = [], self.at + 1
        while self.text[at : at + 1] != quote or (quote == "'" and not values):
            value, at = self.character(at, quote)
            values += [] if value is None else [value]
            if quote == "'" and self.text[at : at + 1] != quote:
                raise Refused(f"a character without its end at {self.line}:{self.column}")
        self.add("text" if quote == '"' else "character", at + 1, values if quote == '"' else values[0])

    def character(self, at, quote):
        """The number of a character of a literal, or None for an empty escape, and where it ends."""
        sign = self.text[at : at + 1]
        if not sign or ord(sign) < FIRST_PRINTED or ord(sign) == DELETE:
            raise Refused(f"a literal without its end at {self.line}:{self.column}")
        if sign != "\\":
            return ord(sign), at + 1
        after = self.text[at + 1 : at + 2]
        if after in ESCAPES:
            return ESCAPES[after], at + 2
        if after == "&" and quote == '"':
            return None, at + 2
        for pattern, base in NUMBERS:
            digits = pattern.match(self.text, at + 1)
            if digits:
                return int(digits[1], base), digits.end()
        raise Refused(f"an unknown escape at {self.line}:{self.column}")


def tokens(text):
    return Lexer(text).tokens()
