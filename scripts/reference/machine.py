"""The machine: graphs, which node is rewritten next, and the step table.

Nodes: (constructed, QNAME, IDS) (literal, VALUE) (partial, HEAD, IDS, MISSING) (free) (call, QNAME, IDS) (operation, TEXT, IDS)
(apply, ID, ID) (case, MODE, ID, BRANCHES, VARIABLES) (or, ID, ID) (same as, ID) (set call, N, QNAME, IDS) (failed) (stuck). A node is named
by its place in its graph.

What a state needs is DONE, DEAD, (at, ID) or (waits, IDS). An event is "answer", "fails", (waits, IDS) or (goes on, STATES).
"""

import dataclasses

from .modules import prelude
from .trees import Lowering

DONE, DEAD = ("done",), ("dead",)
GREATEST, LEAST = (1 << 127) - 1, -(1 << 127)
LAST_CHARACTER, SURROGATES = 0x10FFFF, range(0xD800, 0xE000)
ARITHMETIC = {
    "+": lambda a, b: a + b,
    "-": lambda a, b: a - b,
    "*": lambda a, b: a * b,
    "div": lambda a, b: a // b,
    "mod": lambda a, b: a % b,
    "<": lambda a, b: a < b,
    "<=": lambda a, b: a <= b,
    ">": lambda a, b: a > b,
    ">=": lambda a, b: a >= b,
}


class Stopped(Exception):
    """Why the whole search ends."""


@dataclasses.dataclass
class Search:
    """A search for all values that runs in a state: the node of its call, the values found, and its level."""

    node: int
    found: list
    level: list


@dataclasses.dataclass
class State:
    """A graph with its root, the nodes of the goal's variables, and maybe a search.

    `path` has the nodes from the root to the one that was rewritten last, each with whether all of it is needed. It is empty where the next
    walk has to begin at the root.
    """

    graph: list
    root: int
    variables: tuple = ()
    search: Search | None = None
    path: list = dataclasses.field(default_factory=list)

    def copy(self):
        return State(list(self.graph), self.root, self.variables, self.search, list(self.path))

    def head(self, node):
        """A node that is no other name for another, and its place."""
        while self.graph[node][0] == "same as":
            node = self.graph[node][1]
        return node, self.graph[node]

    def push(self, node):
        self.graph.append(node)
        return len(self.graph) - 1


def truth(value):
    return ("constructed", prelude("True" if value else "False"), ())


def is_true(node):
    return node[:2] == ("constructed", prelude("True"))


class Needs:
    """Which node of a state has to be rewritten next."""

    def __init__(self, state):
        self.state = state

    def of_root(self):
        """What the root needs, by way of where the last step was."""
        path = self.state.path
        while path:
            is_whole, node = path.pop()
            depth = len(path)
            need = self.whole(node) if is_whole else self.outermost(node)
            if need is DEAD or need[0] == "at":
                return need
            del path[depth:]
            if need is not DONE:
                break
        path.clear()
        return self.whole(self.state.root)

    def whole(self, node):
        """What is needed for a value without anything left to evaluate."""
        path, depth = self.state.path, len(self.state.path)
        need = self.outermost(node)
        if need is not DONE:
            return need
        del path[depth:]
        node, found = self.state.head(node)
        if found[0] not in ("constructed", "partial"):
            return DONE
        path.append((True, node))
        need = self.first([lambda argument=argument: self.whole(argument) for argument in found[2]])
        if need is DONE:
            del path[depth:]
        return need

    def outermost(self, node):
        """What is needed for an outermost constructor, a literal, a function or a variable."""
        node, found = self.state.head(node)
        match found[0]:
            case "constructed" | "literal" | "partial" | "free":
                return DONE
            case "failed":
                return DEAD
            case "stuck":
                return ("waits", ())
        self.state.path.append((False, node))
        depth = len(self.state.path)
        need = self.of_arguments(node, found)
        if need is DONE or need == ("at", node):
            del self.state.path[depth:]
            return ("at", node)
        return need

    def of_arguments(self, node, found):
        match found:
            case ("call", _, _) | ("or", _, _):
                return DONE
            case ("case", mode, examined, _, _):
                return self.known(examined) if mode == "Rigid" else self.outermost(examined)
            case ("apply", function, _):
                return self.known(function)
            case ("set call", _, _, arguments):
                need = self.first([lambda argument=argument: self.whole(argument) for argument in arguments])
                free = dict.fromkeys(variable for argument in arguments for variable in self.variables(argument)) if need is DONE else ()
                return ("waits", tuple(free)) if free else need
            case ("operation", "&", sides):
                return self.first([lambda side=side: self.side(node, side) for side in sides])
            case ("operation", "=:=", sides):
                return self.first([lambda side=side: self.outermost(side) for side in sides])
            case ("operation", _, arguments):
                return self.first([lambda argument=argument: self.known(argument) for argument in arguments])

    def known(self, node):
        """What is needed of something that has to be known, and for which a free variable is waited."""
        need = self.outermost(node)
        place, found = self.state.head(node)
        return ("waits", (place,)) if need is DONE and found[0] == "free" else need

    def side(self, node, side):
        """What is needed of a side of `&`, which ends it where it is anything but true."""
        need = self.known(side)
        if need is DONE and not is_true(self.state.head(side)[1]):
            return ("at", node)
        return need

    def first(self, looks):
        """The first that can be rewritten or has failed; else all that is waited for."""
        path, depth, waited = self.state.path, len(self.state.path), []
        for look in looks:
            need = look()
            if need is DEAD or need[0] == "at":
                if waited:
                    # Something before it waits, and this step may be what it waits for.
                    self.forget()
                return need
            waited += [need] if need[0] == "waits" else []
            del path[depth:]
        return ("waits", tuple(dict.fromkeys(node for _, nodes in waited for node in nodes))) if waited else DONE

    def forget(self):
        """Has the next walk begin at the root."""
        self.state.path[:] = [(True, self.state.root)]

    def variables(self, node, seen=None):
        """The free variables of a value, from the left."""
        seen = set() if seen is None else seen
        node, found = self.state.head(node)
        if found[0] == "free":
            yield node
        elif found[0] in ("constructed", "partial") and node not in seen:
            seen.add(node)
            for argument in found[2]:
                yield from self.variables(argument, seen)


class Builder:
    """Makes nodes of code."""

    def __init__(self, program, graph):
        self.program, self.graph = program, graph

    def push(self, node):
        self.graph.append(node)
        return len(self.graph) - 1

    def built(self, code, variables):
        """The place of what is built."""
        node = self.node(code, variables)
        return node[1] if node[0] == "same as" else self.push(node)

    def all(self, codes, variables):
        return tuple(self.built(code, variables) for code in codes)

    def node(self, code, variables):
        """The outermost node of what is built, whose parts are pushed."""
        match code:
            case ("variable", number):
                return ("same as", variables[number])
            case ("let", number, definition, body):
                return self.node(body, {**variables, number: self.built(definition, variables)})
            case ("free", number, body):
                return self.node(body, {**variables, number: self.push(("free",))})
            case ("constructed", name, parts):
                return ("constructed", name, self.all(parts, variables))
            case ("called", name, parts):
                return called(self.program, ("function", name), self.all(parts, variables))
            case ("partial", head, parts, missing):
                return ("partial", head, self.all(parts, variables), missing)
            case ("set call", size, name, parts):
                return ("set call", size, name, self.all(parts, variables))
            case ("apply" | "or" as form, left, right):
                return (form, *self.all((left, right), variables))
            case ("case", mode, examined, branches):
                return ("case", mode, self.built(examined, variables), branches, variables)
        return code


def called(program, head, arguments):
    """The node of a head with all its arguments."""
    match head:
        case ("constructor", name):
            return ("constructed", name, arguments)
        case ("set", size, name):
            return ("set call", size, name, arguments)
        case ("function", name) if name == prelude("failed"):
            return ("failed",)
        case ("function", name) if program.functions[name].is_built_in:
            return ("operation", name[1], arguments)
        case ("function", name):
            return ("call", name, arguments)


class Operations:
    """The built-in operations on arguments that are known. Each gives the node that takes the place of its call."""

    def __init__(self, state):
        self.state = state

    def node(self, name, arguments):
        heads = [self.state.head(argument) for argument in arguments]
        nodes = [node for _, node in heads]
        match name:
            case "&":
                return truth(True) if all(map(is_true, nodes)) else ("failed",)
            case "==":
                return self.equal(*nodes)
            case "=:=":
                return self.unified(*heads)
            case "ord" | "chr":
                return self.converted(name, nodes[0])
        if any(node[0] != "literal" or node[1][0] != "integer" for node in nodes):
            return ("failed",)
        return self.computed(name, *(node[1][1] for node in nodes))

    @staticmethod
    def converted(name, node):
        wanted, made = ("character", "integer") if name == "ord" else ("integer", "character")
        if node[0] != "literal" or node[1][0] != wanted:
            return ("failed",)
        number = node[1][1]
        is_character = 0 <= number <= LAST_CHARACTER and number not in SURROGATES
        return ("literal", (made, number)) if name == "ord" or is_character else ("failed",)

    @staticmethod
    def computed(name, left, right):
        if name in ("div", "mod") and right == 0:
            return ("failed",)
        result = ARITHMETIC[name](left, right)
        if isinstance(result, bool):
            return truth(result)
        if not LEAST <= result <= GREATEST:
            raise Stopped("overflow")
        return ("literal", ("integer", result))

    def equal(self, left, right):
        if "partial" in (left[0], right[0]):
            return ("failed",)
        if "literal" in (left[0], right[0]) or left[1] != right[1]:
            return truth(left == right)
        return self.pairs("==", list(zip(left[2], right[2])), lambda first, rest: ("call", prelude("&&"), (first, rest)))

    def pairs(self, name, pairs, join):
        """An operation on pairs of arguments, all of which have to hold."""
        if not pairs:
            return truth(True)
        nodes = [("operation", name, pair) for pair in pairs]
        if len(nodes) == 1:
            return nodes[0]
        places = [self.state.push(node) for node in nodes]
        rest = places[-1]
        for place in reversed(places[1:-1]):
            rest = self.state.push(join(place, rest))
        return join(places[0], rest)

    def equations(self, pairs):
        return self.pairs("=:=", pairs, lambda first, rest: ("operation", "&", (first, rest)))

    def unified(self, left, right):
        (place, node), (other_place, other) = left, right
        if "partial" in (node[0], other[0]):
            return ("failed",)
        if node[0] == "free" and other[0] == "free":
            if place != other_place:
                self.state.graph[place] = ("same as", other_place)
            return truth(True)
        if node[0] == "free":
            return self.bound(place, other_place, other)
        if other[0] == "free":
            return self.bound(other_place, place, node)
        if node[0] == "literal" or other[0] == "literal":
            return truth(True) if node == other else ("failed",)
        return self.equations(list(zip(node[2], other[2]))) if node[1] == other[1] else ("failed",)

    def bound(self, variable, place, node):
        """A variable that becomes the outermost of a value, over new variables."""
        if node[0] == "literal" or not node[2]:
            self.state.graph[variable] = ("same as", place)
            return truth(True)
        if any(self.reaches(argument, variable, set()) for argument in node[2]):
            return ("failed",)
        fresh = tuple(self.state.push(("free",)) for _ in node[2])
        self.state.graph[variable] = ("constructed", node[1], fresh)
        return self.equations(list(zip(fresh, node[2])))

    def reaches(self, place, variable, seen):
        place, node = self.state.head(place)
        if place == variable:
            return True
        if node[0] != "constructed" or place in seen:
            return False
        seen.add(place)
        return any(self.reaches(argument, variable, seen) for argument in node[2])


class Machine:
    """Steps of states of one program, with the limits on nodes of a graph and on the branches of a level."""

    def __init__(self, program, nodes, width):
        self.program, self.nodes, self.width = program, nodes, width
        self.lowering, self.codes = Lowering(program), {}

    def start(self, variables):
        graph = [("free",)] * variables
        graph.append(("call", ("goal", "goal"), tuple(range(variables))))
        return State(graph, variables, tuple(range(variables)))

    def code(self, name):
        if name not in self.codes:
            self.codes[name] = self.lowering.function(self.program.functions[name])
        return self.codes[name]

    def bounded(self, states):
        if any(len(state.graph) > self.nodes for state in states):
            raise Stopped("too large")
        return ("goes on", states)

    def run(self, state, stride):
        """The event after up to so many steps, as long as one state alone follows, and the state of which it is."""
        event = self.next(state)
        while stride > 1 and event[0] == "goes on" and len(event[1]) == 1:
            (state,), stride = event[1], stride - 1
            event = self.next(state)
        return state, event

    def next(self, state):
        self.bounded([state])
        if state.search:
            return self.advanced(state)
        need = Needs(state).of_root()
        if need is DONE and is_larger(state, [*state.variables, state.root], self.nodes):
            raise Stopped("too large")
        if need in (DONE, DEAD):
            return "answer" if need is DONE else "fails"
        return need if need[0] == "waits" else self.bounded(self.rewritten(state, need[1]))

    def rewritten(self, state, place):
        """The states that follow where a node is rewritten, of which the last is the state itself."""
        node = state.graph[place]
        builder = Builder(self.program, state.graph)
        match node:
            case ("or", left, right):
                other = state.copy()
                other.graph[place], state.graph[place] = ("same as", left), ("same as", right)
                return [other, state]
            case ("case", _, examined, branches, variables):
                return self.distinguished(state, place, examined, branches, variables)
            case ("call", name, arguments):
                parameters, code = self.code(name)
                state.graph[place] = builder.node(code, dict(zip(parameters, arguments)))
            case ("apply", function, argument):
                state.graph[place] = self.applied(state.head(function)[1], argument)
            case ("set call", _, name, arguments):
                self.begin_search(state, place, name, arguments)
            case ("operation", name, arguments):
                state.graph[place] = Operations(state).node(name, arguments)
        return [state]

    def applied(self, function, argument):
        if function[0] != "partial":
            return ("failed",)
        _, head, arguments, missing = function
        arguments = (*arguments, argument)
        return ("partial", head, arguments, missing - 1) if missing > 1 else called(self.program, head, arguments)

    def distinguished(self, state, place, examined, branches, variables):
        examined, node = state.head(examined)
        if node[0] == "free":
            return [self.narrowed(state.copy(), examined, key, len(arguments)) for key, arguments, _ in branches]
        key = ("literal", node[1]) if node[0] == "literal" else ("constructor", node[1])
        for wanted, arguments, code in branches:
            if wanted == key:
                inner = {**variables, **dict(zip(arguments, node[2] if len(node) > 2 else ()))}
                state.graph[place] = Builder(self.program, state.graph).node(code, inner)
                return [state]
        state.graph[place] = ("failed",)
        return [state]

    @staticmethod
    def narrowed(state, variable, key, size):
        fresh = tuple(state.push(("free",)) for _ in range(size))
        state.graph[variable] = ("literal", key[1]) if key[0] == "literal" else ("constructed", key[1], fresh)
        return state

    # Searches for all values

    def begin_search(self, state, place, name, arguments):
        values = [value_of(state, argument) for argument in arguments]
        if any(holds_a_function(value) for value in values):
            state.graph[place] = ("stuck",)
            return
        inner = State([], 0)
        places = tuple(pushed(inner, value) for value in values)
        inner.root = inner.push(called(self.program, ("function", name), places))
        self.bounded([inner])
        state.search = Search(place, [], [inner])

    def advanced(self, state):
        """One level of a search within a state."""
        search = state.search
        if not search.level:
            return self.ended(state, search)
        found, level = list(search.found), []
        for inner in search.level:
            event = self.next(inner)
            value = value_of(inner, inner.root) if event == "answer" else None
            if event[0] == "waits" or (value and not is_ground(value)):
                state.graph[search.node], state.search = ("stuck",), None
                return ("goes on", [state])
            found += [value] if value else []
            level += event[1] if event[0] == "goes on" else []
        if len(level) > self.width:
            raise Stopped("too wide")
        state.search = Search(search.node, found, level)
        return ("goes on", [state])

    def ended(self, state, search):
        end = state.push(("constructed", prelude("[]"), ()))
        for value in sorted(set(search.found), key=self.order, reverse=True):
            end = state.push(("constructed", prelude(":"), (pushed(state, value), end)))
        state.graph[search.node], state.search = ("constructed", ("SetFunctions", "Values"), (end,)), None
        return self.bounded([state])

    def order(self, value):
        """What values are sorted by."""
        if value[0] == "literal":
            return (value[1][1],)
        return (self.program.constructors[value[1]].place, tuple(self.order(part) for part in value[2]))


# Values: (literal, VALUE), (free, ID), (partial, HEAD, VALUES), (constructed, QNAME, VALUES).


def value_of(state, place):
    place, node = state.head(place)
    if node[0] == "literal":
        return node
    if node[0] == "free":
        return ("free", place)
    return (node[0], node[1], tuple(value_of(state, argument) for argument in node[2]))


def is_larger(state, places, limit):
    """Whether the values at these places have more cells together than the limit."""
    left = list(places)
    while left and limit >= 0:
        _, node = state.head(left.pop())
        left += node[2] if node[0] in ("constructed", "partial") else ()
        limit -= 1
    return limit < 0


def is_ground(value):
    return value[0] == "literal" or (value[0] == "constructed" and all(map(is_ground, value[2])))


def holds_a_function(value):
    return value[0] == "partial" or (value[0] == "constructed" and any(map(holds_a_function, value[2])))


def pushed(state, value):
    """The place of a value in a state's graph, to which its nodes are added."""
    if value[0] == "literal":
        return state.push(value)
    return state.push((value[0], value[1], tuple(pushed(state, part) for part in value[2])))
