"""The text of FlatCurry."""

from .inference import Inference, Variable, known
from .lifting import lifted_program
from .modules import Program
from .trees import Lowering

OPERATORS = {"infixl": "InfixlOp", "infixr": "InfixrOp", "infix": "InfixOp"}


def quoted(text):
    return '"' + text.replace("\\", "\\\\") + '"'


def name(named):
    return f"({quoted(named[0])},{quoted(named[1])})"


def listed(parts):
    return "[" + ",".join(map(str, parts)) + "]"


def in_lines(parts):
    return "[" + ",".join("\n" + part for part in parts) + "]"


def visibility(is_public):
    return "Public" if is_public else "Private"


def literal(value):
    sort, number = value
    if sort == "character":
        return f"Charc {number}"
    return f"Intc ({number})" if number < 0 else f"Intc {number}"


def written_type(type, numbers):
    """A type as it is written, with the numbers of its variables by their names."""
    match type:
        case ("variable", text):
            return f"TVar {numbers.setdefault(text, len(numbers))}"
        case ("function", parameter, result):
            return f"FuncType ({written_type(parameter, numbers)}) ({written_type(result, numbers)})"
        case ("constructor", named, arguments):
            return f"TCons {name(named)} {listed(written_type(argument, numbers) for argument in arguments)}"


def inferred_type(type, numbers):
    type = known(type)
    if isinstance(type, Variable):
        return f"TVar {numbers.setdefault(type, len(numbers))}"
    head, parts = type
    shown = [inferred_type(part, numbers) for part in parts]
    return f"FuncType ({shown[0]}) ({shown[1]})" if head == "->" else f"TCons {name(head)} {listed(shown)}"


class Rule:
    """The rule of one function, whose variables are numbered as they are bound."""

    def __init__(self, program):
        self.program, self.numbers = program, {}

    def bound(self, variable):
        self.numbers[variable] = len(self.numbers) + 1
        return self.numbers[variable]

    def text(self, parameters, code):
        numbers = [self.bound(parameter) for parameter in parameters]
        return f"Rule {listed(numbers)} ({self.expression(code)})"

    def all(self, codes):
        return listed([self.expression(code) for code in codes])

    def expression(self, code):
        match code:
            case ("variable", number):
                return f"Var {self.numbers[number]}"
            case ("literal", value):
                return f"Lit ({literal(value)})"
            case ("failed",):
                return 'Comb FuncCall ("Prelude","failed") []'
            case ("constructed", named, parts):
                return f"Comb ConsCall {name(named)} {self.all(parts)}"
            case ("called", named, parts):
                return f"Comb FuncCall {name(named)} {self.all(parts)}"
            case ("apply", function, argument):
                return f'Comb FuncCall ("Prelude","apply") {self.all([function, argument])}'
            case ("or", left, right):
                return f"Or ({self.expression(left)}) ({self.expression(right)})"
            case ("let", variable, definition, body):
                number = self.bound(variable)
                return f"Let [({number},{self.expression(definition)})] ({self.expression(body)})"
            case ("free", variable, body):
                return f"Free [{self.bound(variable)}] ({self.expression(body)})"
        return self.longer_expression(code)

    def longer_expression(self, code):
        match code:
            case ("set call", size, named, parts):
                return f"Comb FuncCall {self.of_set(size, named, parts)}"
            case ("partial", ("set", size, named), parts, missing):
                return f"Comb (FuncPartCall {missing}) {self.of_set(size, named, parts)}"
            case ("partial", (sort, named), parts, missing):
                kind = "ConsPartCall" if sort == "constructor" else "FuncPartCall"
                return f"Comb ({kind} {missing}) {name(named)} {self.all(parts)}"
            case ("case", mode, examined, branches):
                shown = self.expression(examined)
                return f"Case {mode} ({shown}) {listed([self.branch(*branch) for branch in branches])}"

    def of_set(self, size, named, parts):
        function = f"Comb (FuncPartCall {size}) {name(named)} []" if size else f"Comb FuncCall {name(named)} []"
        return f'("SetFunctions","set{size}") {listed([function, *map(self.expression, parts)])}'

    def branch(self, key, arguments, code):
        sort, asked = key
        numbers = [self.bound(argument) for argument in arguments]
        pattern = f"Pattern {name(asked)} {listed(numbers)}" if sort == "constructor" else f"LPattern ({literal(asked)})"
        return f"Branch ({pattern}) ({self.expression(code)})"


class Text:
    """The text of a module of a lifted program."""

    def __init__(self, program, module):
        self.program, self.module = program, program.modules[module]
        self.inference, self.lowering = Inference(program), Lowering(program)

    def whole(self):
        imports = dict.fromkeys(item[1] for item in self.module.imports)
        functions = [function for function in self.program.functions.values() if function.module == self.module.name]
        parts = [self.types(), [self.function(function) for function in functions], self.operators()]
        shown = " ".join(in_lines(part) if part else "[]" for part in parts)
        return f"Prog {quoted(self.module.name)} {listed(map(quoted, imports))} {shown}\n"

    def types(self):
        data = [self.data(item[1], item[2]) for item in self.module.items if item[0] == "data"]
        return data + [self.synonym(*item[1:]) for item in self.module.items if item[0] == "synonym"]

    def data(self, text, parameters):
        named, numbers = (self.module.name, text), {parameter: number for number, parameter in enumerate(parameters)}
        shown = [self.constructor(each, numbers) for each in self.program.types[named]]
        public = visibility(text in self.module.exported_types)
        return f"Type {name(named)} {public} {listed(numbers.values())} {listed(shown)}"

    def constructor(self, named, numbers):
        constructor = self.program.constructors[named]
        types = [written_type(self.program.expanded(argument), numbers) for argument in constructor.arguments]
        return f"Cons {name(named)} {constructor.arity} {visibility(named[1] in self.module.exported)} {listed(types)}"

    def synonym(self, text, parameters, body):
        numbers = {parameter: number for number, parameter in enumerate(parameters)}
        shown = written_type(self.module.type(body), numbers)
        public = visibility(text in self.module.exported_types)
        return f"TypeSyn {name((self.module.name, text))} {public} {listed(numbers.values())} ({shown})"

    def function(self, function):
        if function.declared and not function.captured:
            type = written_type(self.program.expanded(function.declared), {})
        else:
            type = inferred_type(self.inference.types[function.name], {})
        if function.is_built_in:
            rule = f"External {quoted('.'.join(function.name))}"
        else:
            rule = Rule(self.program).text(*self.lowering.function(function))
        return f"Func {name(function.name)} {function.arity} {visibility(function.is_public)} ({type}) ({rule})"

    def operators(self):
        shown = []
        for item in self.module.items:
            if item[0] == "fixity":
                _, side, level, names = item
                shown += [f"Op {name((self.module.name, text))} {OPERATORS[side]} {level}" for text in names]
        return shown


def flatcurry(fetch, module):
    return Text(lifted_program(Program(module, fetch)), module).whole()
