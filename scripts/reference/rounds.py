"""A listing: rounds of states, and the lines that they come to."""

import dataclasses

from .display import Display
from .lifting import lift_goal, lifted_program
from .machine import Machine, Stopped, value_of
from .modules import Program

NO_MORE, FLOUNDERED, LIMIT, STOPPED = 0, 1, 2, 5


@dataclasses.dataclass
class Limits:
    """The limits of a search, as the command line has them."""

    rounds: int = 100_000
    answers: int = 0
    nodes: int = 1_000_000
    width: int = 65_536
    stride: int = 1


class Listing:
    """The lines of a goal in a module, and the status."""

    def __init__(self, fetch, module, goal, limits):
        program = lifted_program(Program(module, fetch))
        self.names = lift_goal(program, module, goal)
        self.machine, self.limits = Machine(program, limits.nodes, limits.width), limits
        self.lines, self.answers, self.waiting = [], 0, 0

    def run(self):
        level, number = [self.machine.start(len(self.names))], 0
        while True:
            after = []
            try:
                for state in level:
                    after += self.listed(number, *self.machine.run(state, self.limits.stride))
                    if self.answers and self.answers == self.limits.answers:
                        return self.ended(f"stopped at answer {self.answers}", LIMIT)
            except Stopped as stop:
                return self.ended(f"{stop} at round {number}", STOPPED)
            end = self.end(number, len(after))
            if end:
                return self.ended(*end)
            level, number = after, number + 1

    def end(self, number, size):
        """How the listing ends with a round after which so many states are open, if it does."""
        if not size and self.waiting:
            return (f"no more; {self.waiting} floundered", FLOUNDERED)
        if not size:
            return ("no more", NO_MORE)
        if number == self.limits.rounds:
            return (f"stopped at round {number}; {size} open", LIMIT)
        return (f"too wide at round {number + 1}", STOPPED) if size > self.limits.width else None

    def ended(self, line, status):
        self.lines.append(line)
        return "".join(f"{each}\n" for each in self.lines), status

    def listed(self, number, state, event):
        """The states that follow an event, whose line is added if it has one."""
        if event == "answer":
            self.answers += 1
            self.lines.append(f"[{number}] {self.answer(state)}")
        elif event[0] == "waits":
            self.waiting += 1
            self.lines.append(f"[{number}] waits {self.waited(state, event[1])}")
        return event[1] if event[0] == "goes on" else []

    def answer(self, state):
        display = Display()
        bindings = [f"{name}={display.shown(value_of(state, variable))}" for name, variable in zip(self.names, state.variables)]
        value = display.shown(value_of(state, state.root))
        return "{" + ", ".join(bindings) + "} " + value if bindings else value

    def waited(self, state, nodes):
        names, display = {}, Display()
        for name, variable in zip(self.names, state.variables):
            names.setdefault(state.head(variable)[0], name)
        shown = [names.get(node) or display.shown(("free", node)) for node in nodes]
        return "on " + ", ".join(shown) if shown else "inside a set function"


def listing(fetch, module, goal, limits):
    return Listing(fetch, module, goal, limits).run()
