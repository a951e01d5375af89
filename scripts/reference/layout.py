"""Layout: the braces and semicolons that indentation stands for.

A stack has an entry for what is open: the column of a block that was opened by indentation, or a word.
"""

from .tokens import Token

PARTNERS = {"in": "let", "then": "if", "else": "then", "of": "case", ")": "(", "]": "["}
BRACE = "{"
OPENING_WORDS = {"let": "let", "if": "if", "then": "then", "else": "else", "in": "in", "case": "case", "fcase": "case"}
OPENING = {"mark": {mark: mark for mark in "{(["}, "keyword": OPENING_WORDS, "reserved": {"\\": "\\"}}
NOT_ITEMS = ("then", "else", "of", "in", ",", ")", "]")
NAMES = ("variable", "constructor", "qualified variable", "qualified constructor", "operator", "qualified operator")


class Layout:
    def __init__(self):
        self.out, self.stack = [], []

    def of(self, tokens, is_module):
        is_due, line = is_module and not (tokens and tokens[0].text == "module"), 0
        for token in tokens:
            begins_block = is_due and token.text != BRACE and self.begin_block(token)
            if token.line != line and not begins_block:
                self.begin_line(token)
            line = token.line
            self.close(token)
            self.out.append(token)
            opened = OPENING.get(token.kind, {}).get(token.text)
            self.stack += [opened] if opened else []
            is_due = token.kind == "keyword" and token.text in ("where", "let", "of")
        last = tokens[-1] if tokens else Token("layout", "", 1, 1)
        if is_due:
            self.emit("{", last)
            self.emit("}", last)
        self.pop_to(0, last)
        return self.out

    def emit(self, text, token):
        self.out.append(Token("layout", text, token.line, token.column))

    def pop_to(self, depth, token):
        """Pops what is above so many entries, with a brace for each block."""
        for entry in reversed(self.stack[depth:]):
            if isinstance(entry, int):
                self.emit("}", token)
        del self.stack[depth:]

    def innermost(self):
        """The place of the innermost block or brace, or None."""
        places = [place for place, entry in enumerate(self.stack) if isinstance(entry, int) or entry == BRACE]
        return places[-1] if places else None

    def begin_block(self, token):
        """Opens a block at a token, or an empty one before it. Tells whether the token is in it."""
        place = self.innermost()
        around = 0 if place is None or self.stack[place] == BRACE else self.stack[place]
        self.emit("{", token)
        if token.column > around:
            self.stack.append(token.column)
            return True
        self.emit("}", token)
        return False

    def begin_line(self, token):
        """Ends the blocks that a first token of a line doesn't belong to, and tells items apart."""
        while (place := self.innermost()) is not None and self.stack[place] != BRACE:
            column = self.stack[place]
            if token.column < column or (token.column == column and token.text == "where"):
                del self.stack[place:]
                self.emit("}", token)
                continue
            if token.column == column and token.text not in NOT_ITEMS:
                del self.stack[place + 1 :]
                self.emit(";", token)
            return

    def close(self, token):
        """Pops what ends before a token that closes something."""
        is_comma = token.kind == "mark" and token.text == ","
        wanted = PARTNERS.get(token.text) if token.kind in ("keyword", "mark") else None
        if token.kind == "mark" and token.text == "}":
            if BRACE in self.stack:
                place = len(self.stack) - 1 - self.stack[::-1].index(BRACE)
                self.pop_to(place + 1, token)
                self.stack.pop()
        elif is_comma or wanted:
            place = self.partner(("(", "[") if is_comma else (wanted,))
            is_in_block = place is not None and any(isinstance(entry, int) for entry in self.stack[place + 1 :])
            if place is None or (is_comma and is_in_block and self.has_names_only()):
                return
            self.pop_to(place + 1, token)
            if not is_comma:
                self.stack.pop()

    def partner(self, wanted):
        for place in range(len(self.stack) - 1, -1, -1):
            if self.stack[place] == BRACE:
                return None
            if self.stack[place] in wanted:
                return place
        return None

    def has_names_only(self):
        """Whether only names and commas stand after the last brace or semicolon."""
        for token in reversed(self.out):
            if token.kind in ("layout", "mark") and token.text in ("{", ";"):
                return True
            if token.kind not in NAMES and token.text not in ("(", ")", ",", "`"):
                return False
        return True


def laid_out(tokens, is_module):
    return Layout().of(tokens, is_module)
