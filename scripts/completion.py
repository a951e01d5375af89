"""Completes what is typed at the prompt of ./repl: its commands, limits, modules, and the names of a module and of the Prelude."""

import pathlib
import re

MANUAL = pathlib.Path(__file__).resolve().parent.parent / "docs" / "MANUAL.md"
# What ends a word: all but what names, modules and commands have.
DELIMITERS = " \t\n()[]{},;`\"\\|=<>+-*/&$@~^%#!?"
NAME = re.compile(r"[A-Za-z_][\w']*")
# What is completed has two letters or more.
SHORT = 2


def candidates(before, word, client):
    """What a word may be completed to, where `before` stands to its left in the line."""
    match before.split():
        case []:
            found = with_space(client.COMMANDS) if word.startswith(":") else names(client.folder, client.module)
        case [first] if client.named(first) == ":load":
            found = modules(client.folder, word)
        case [first] if client.named(first) == ":set":
            found = with_space(client.LIMITS)
        case [first, *_] if first.startswith(":"):
            found = []
        case _:
            found = names(client.folder, client.module)
    return sorted({it for it in found if it.startswith(word)})


def with_space(words):
    return [word + " " for word in words]


def modules(folder, word):
    """The modules below a folder whose names begin as a word does, and the folders in which others are, with a dot."""
    above, dot, _ = word.rpartition(".")
    found = []
    for path in pathlib.Path(folder, *above.split(".")).glob("*"):
        if path.suffix == ".curry" and path.is_file():
            found.append(above + dot + path.stem)
        elif path.name.isidentifier() and path.is_dir():
            found.append(above + dot + path.name + ".")
    return found


def names(folder, module):
    """The names that stand in the text of a module, and those of the Prelude, by the manual's table."""
    try:
        text = pathlib.Path(folder, (module or "").replace(".", "/") + ".curry").read_text(errors="replace")
    except OSError:
        text = ""
    prelude = MANUAL.read_text().partition("\n### The Prelude\n")[2].partition("\n### ")[0]
    told = " ".join(code.partition("::")[0] for code in re.findall(r"`([^`]+)`", prelude))
    return [name for name in NAME.findall(f"{text} {told}") if len(name) >= SHORT]
