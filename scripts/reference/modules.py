"""Modules, and what names mean in them.

An entity is a pair of its sort and what it is: (function, QNAME), (constructor, QNAME) or (set, N) for `setN`; a QNAME is a pair of a
module and a name. Types here have QNAMEs in place of texts.
"""

import dataclasses
import pathlib
import re

from . import Refused, grammar
from .grammar import tuple_name, unqualified

TEXTS = pathlib.Path(__file__).resolve().parent.parent.parent / "crates/cu_prelude/src"
BUILT_IN = {"Prelude": "prelude.rt", "SetFunctions": "set_functions.rt"}
EXTERNALS = {**dict.fromkeys("+ - * div mod < <= > >= == =:= &".split(), 2), "ord": 1, "chr": 1, "failed": 0}
MOST_COMPONENTS = 15
MOST_ARGUMENTS = 7
ALWAYS = re.compile(r"\[\]|:|\(,*\)")
UNDECLARED = ("infixl", 9)


def prelude(name):
    return ("Prelude", name)


def built_in_text(name):
    """The text of a built-in module, which stands as a constant in the sources."""
    source = (TEXTS / BUILT_IN[name]).read_text()
    text = source[source.index('"\\\n') + 3 : source.rindex('"')]
    return re.sub(r"\\(.)", r"\1", text)


@dataclasses.dataclass
class Function:
    """A function of the program. Rules are pairs of patterns and a term (`translation`)."""

    name: tuple
    arity: int
    rules: list = dataclasses.field(default_factory=list)
    is_public: bool = True
    is_built_in: bool = False
    captured: int = 0
    declared: object = None

    @property
    def module(self):
        return self.name[0]


@dataclasses.dataclass
class Constructor:
    """A constructor: its type, that type's parameters, its place among all constructors, and the types of its arguments."""

    type: tuple
    parameters: list
    place: tuple
    arguments: list

    @property
    def arity(self):
        return len(self.arguments)


class Module:
    def __init__(self, name, text):
        self.name = name
        _, self.export_list, self.items = grammar.module(text)
        self.imports = [item for item in self.items if item[0] == "import"]
        if name != "Prelude" and all(item[1] != "Prelude" for item in self.imports):
            self.imports.insert(0, ("import", "Prelude", False, "Prelude", False, None))
        # What is declared here, what is exported, and what names mean: entities and types by names.
        self.own, self.own_types = {}, {}
        self.exported, self.exported_types = {}, {}
        self.scope, self.type_scope = {}, {}
        self.fixities, self.rules = {}, {}

    def meaning(self, table, name):
        found = table.get(name, set())
        if len(found) != 1:
            raise Refused(f"{name} means {len(found)} things in {self.name}")
        return next(iter(found))

    def entity(self, name):
        return ("constructor", prelude(name)) if ALWAYS.fullmatch(name) else self.meaning(self.scope, name)

    def type(self, written):
        """A type as it is written, with its names looked up."""
        match written:
            case ("variable", _):
                return written
            case ("function", parameter, result):
                return ("function", self.type(parameter), self.type(result))
            case ("constructor", name, arguments):
                named = prelude(name) if ALWAYS.fullmatch(name) else self.meaning(self.type_scope, name)
                return ("constructor", named, [self.type(argument) for argument in arguments])


class Program:
    """A root with all modules that it reaches. `fetch` gives the text of a module by its name."""

    def __init__(self, root, fetch):
        self.fetch, self.modules = fetch, {}
        self.functions, self.constructors, self.types, self.synonyms = {}, {}, {}, {}
        self.load(root, [])
        self.load("SetFunctions", [])
        self.declare_first_types()
        for module in self.modules.values():
            self.declare(module)
        for module in self.modules.values():
            self.bind(module)
            self.export(module)
        for module in self.modules.values():
            self.look_up_types(module)

    def load(self, name, path):
        if name in self.modules:
            return
        if name in path:
            raise Refused(f"{name} imports itself")
        module = Module(name, built_in_text(name) if name in BUILT_IN else self.fetch(name))
        for item in module.imports:
            self.load(item[1], [*path, name])
        self.modules[name] = module

    def declare_first_types(self):
        variables = [("variable", f"a{number}") for number in range(MOST_COMPONENTS)]
        list_type = ("constructor", prelude("[]"), variables[:1])
        self.declare_type(prelude("[]"), ["a0"], [("[]", []), (":", [variables[0], list_type])])
        self.declare_type(prelude("()"), [], [("()", [])])
        for size in range(2, MOST_COMPONENTS + 1):
            name = tuple_name(size)
            self.declare_type(prelude(name), [text for _, text in variables[:size]], [(name, variables[:size])])
        for name in ("Int", "Char"):
            self.declare_type(prelude(name), [], [])

    def declare_type(self, name, parameters, constructors):
        number = len(self.types)
        self.types[name] = [(name[0], constructor) for constructor, _ in constructors]
        for place, (constructor, arguments) in enumerate(constructors):
            self.constructors[name[0], constructor] = Constructor(name, parameters, (number, place), arguments)

    def declare(self, module):
        if module.name == "Prelude":
            for name, arity in EXTERNALS.items():
                module.own[name] = ("function", prelude(name))
                self.functions[prelude(name)] = Function(prelude(name), arity, is_built_in=True)
            module.own_types = {name: prelude(name) for name in ("Int", "Char")}
        if module.name == "SetFunctions":
            module.own = {f"set{number}": ("set", number) for number in range(MOST_ARGUMENTS + 1)}
        for item in module.items:
            named = (module.name, item[1]) if isinstance(item[1], str) else None
            match item:
                case ("data", name, parameters, constructors):
                    module.own_types[name] = named
                    self.declare_type(named, parameters, constructors)
                    module.own |= {text: ("constructor", (module.name, text)) for text, _ in constructors}
                case ("synonym", name, parameters, body):
                    module.own_types[name] = named
                    self.synonyms[named] = (parameters, body, module)
                case ("fixity", side, level, names):
                    module.fixities |= dict.fromkeys(names, (side, level))
                case ("function", token, patterns, _):
                    module.rules.setdefault(token.text, []).append(item)
                    module.own[token.text] = ("function", (module.name, token.text))
                    if (module.name, token.text) not in self.functions:
                        self.functions[module.name, token.text] = Function((module.name, token.text), len(patterns))

    def bind(self, module):
        """Finds what names mean, by imports and by what is declared."""
        for _, name, is_qualified, alias, is_hiding, entities in module.imports:
            imported = self.modules[name]
            names, types = imported.exported, imported.exported_types
            if entities is not None:
                listed, listed_types = self.listed(entities, types)
                names = {text: entity for text, entity in names.items() if (text in listed) != is_hiding}
                types = {text: entity for text, entity in types.items() if (text in listed_types) != is_hiding}
            self.bring(module.scope, module.own, names, alias, is_qualified)
            self.bring(module.type_scope, module.own_types, types, alias, is_qualified)
        self.bring(module.scope, {}, module.own, module.name, False)
        self.bring(module.type_scope, {}, module.own_types, module.name, False)

    @staticmethod
    def bring(scope, own, names, alias, is_qualified):
        for text, entity in names.items():
            scope.setdefault(f"{alias}.{text}", set()).add(entity)
            if not is_qualified and text not in own:
                scope.setdefault(text, set()).add(entity)

    def listed(self, entities, types):
        """What an import list or an export list names, with types that are known by names."""
        listed, listed_types = set(), set()
        for sort, name, inside in entities:
            if sort == "type":
                listed_types.add(name)
                constructors = [text for _, text in self.types.get(types[name], [])]
                listed |= {text for text in constructors if inside == "all" or (inside and text in inside)}
            else:
                listed.add(name)
        return listed, listed_types

    def export(self, module):
        if module.export_list is None:
            module.exported, module.exported_types = dict(module.own), dict(module.own_types)
        for sort, name, inside in module.export_list or []:
            if sort == "module":
                source = (module.own, module.own_types) if name == module.name else self.brought(module, name)
                module.exported |= source[0]
                module.exported_types |= source[1]
            elif sort == "type":
                named = module.meaning(module.type_scope, name)
                module.exported_types[unqualified(name)] = named
                for constructor in self.types.get(named, []):
                    if inside == "all" or (inside and constructor[1] in inside):
                        module.exported[constructor[1]] = ("constructor", constructor)
            else:
                module.exported[unqualified(name)] = module.entity(name)
        for text, (sort, named) in module.own.items():
            if sort == "function":
                self.functions[named].is_public = text in module.exported

    def brought(self, module, name):
        """What is in scope without a qualifier from imports of a module."""
        source = self.modules[name]
        names = {text: entity for text, entity in source.exported.items() if entity in module.scope.get(text, ())}
        return names, {text: entity for text, entity in source.exported_types.items() if entity in module.type_scope.get(text, ())}

    def look_up_types(self, module):
        for item in module.items:
            if item[0] == "data":
                for name, arguments in item[3]:
                    self.constructors[module.name, name].arguments = [module.type(argument) for argument in arguments]
            elif item[0] == "signature":
                for token in item[1]:
                    self.functions[module.name, token.text].declared = module.type(item[2])
            elif item[0] == "synonym":
                parameters, body, _ = self.synonyms[module.name, item[1]]
                self.synonyms[module.name, item[1]] = (parameters, module.type(body), module)

    def expanded(self, type):
        """A type without synonyms."""
        match type:
            case ("variable", _):
                return type
            case ("function", parameter, result):
                return ("function", self.expanded(parameter), self.expanded(result))
            case ("constructor", name, arguments):
                arguments = [self.expanded(argument) for argument in arguments]
                if name not in self.synonyms:
                    return ("constructor", name, arguments)
                parameters, body, _ = self.synonyms[name]
                return replaced(self.expanded(body), dict(zip(parameters, arguments)))

    def fixity(self, module, name):
        if name == ":":
            return ("infixr", 5)
        sort, named = module.entity(name)
        return UNDECLARED if sort == "set" else self.modules[named[0]].fixities.get(named[1], UNDECLARED)

    def arity(self, head):
        sort, named = head[0], head[1]
        if sort == "set":
            return named
        return self.constructors[named].arity if sort == "constructor" else self.functions[named].arity


def replaced(type, types):
    """A type with others in place of its variables."""
    match type:
        case ("variable", name):
            return types.get(name, type)
        case ("function", parameter, result):
            return ("function", replaced(parameter, types), replaced(result, types))
        case ("constructor", name, arguments):
            return ("constructor", name, [replaced(argument, types) for argument in arguments])
