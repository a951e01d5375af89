"""How values are shown."""

from .modules import prelude

NAMED = {ord("\\"): "\\\\", ord("\n"): "\\n", ord("\t"): "\\t", ord("\r"): "\\r"}
FIRST_PRINTED, DELETE = 32, 127


def character(number, quote):
    if number == ord(quote):
        return "\\" + quote
    if number < FIRST_PRINTED or number == DELETE:
        return NAMED.get(number, f"\\{number}")
    return NAMED.get(number, chr(number))


def text(numbers):
    shown = [character(number, '"') for number in numbers]
    for place, (part, after) in enumerate(zip(shown, shown[1:])):
        if part[1:].isdigit() and after[0].isdigit():
            shown[place] += "\\&"
    return '"' + "".join(shown) + '"'


class Display:
    """Shows the values of one line, in which variables are numbered as they come."""

    def __init__(self):
        self.names = {}

    def shown(self, value):
        match value:
            case ("literal", ("character", number)):
                return "'" + character(number, "'") + "'"
            case ("literal", (_, number)):
                return str(number)
            case ("free", place):
                return self.names.setdefault(place, f"_{len(self.names) + 1}")
            case ("partial", ("set", size, _), _):
                return f"<set{size}>"
            case ("partial", (_, name), _):
                return f"<{name[1]}>"
            case ("constructed", ("Prelude", ":"), _):
                return self.list(value)
            case ("constructed", ("Prelude", name), parts) if name[0] in "([":
                return "(" + ",".join(map(self.shown, parts)) + ")" if parts else name
            case ("constructed", (_, name), parts):
                head = name if name[0].isalpha() else f"({name})"
                return " ".join([head, *map(self.argument, parts)])

    def argument(self, value):
        shown = self.shown(value)
        return f"({shown})" if needs_parentheses(value) else shown

    def list(self, value):
        elements, end = parts_of(value)
        if end[0] == "free":
            return ":".join([*map(self.argument, elements), self.shown(end)])
        if all(element[0] == "literal" and element[1][0] == "character" for element in elements):
            return text([element[1][1] for element in elements])
        return "[" + ",".join(map(self.shown, elements)) + "]"


def parts_of(value):
    """The elements of a list, and what ends it."""
    elements = []
    while value[:2] == ("constructed", prelude(":")):
        elements.append(value[2][0])
        value = value[2][1]
    return elements, value


def needs_parentheses(value):
    match value:
        case ("literal", ("integer", number)):
            return number < 0
        case ("constructed", ("Prelude", ":"), _):
            return parts_of(value)[1][0] == "free"
        case ("constructed", ("Prelude", name), _) if name[0] in "([":
            return False
        case ("constructed", _, parts):
            return bool(parts)
    return False
