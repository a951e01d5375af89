"""A second implementation of the language, written from its rules and not from the sources of the system.

It is slow, has no limits of its own and refuses nothing with a number: it works out what listings of accepted programs have to be.

    tokens, layout, grammar       a text as trees
    modules, translation, lifting modules as functions by rules over patterns
    trees                         these rules as definitional trees
    machine, rounds, display      steps, levels, lines
    inference, flatcurry          types, and the text of FlatCurry

Trees are tuples that begin with the name of their form; the first comment of each file lists the forms that it makes.
"""


class Refused(Exception):
    """A text that isn't accepted, and why."""
