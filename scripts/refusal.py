"""Explains the line of a refusal: the place in the text to which it points, and what the manual says of it."""

import pathlib
import re
import unicodedata

MANUAL = pathlib.Path(__file__).resolve().parent.parent / "docs" / "MANUAL.md"
OFFSET = re.compile(r" ([\w.']+) offset (\d+)$")
PLACE = re.compile(r" ([\w.']+):(\d+)(?::(\d+))?(?: |$)")
# A row of the manual's table: the line, why it comes, an example, what to do.
CELLS = 4
# The most characters of a line that are shown, and how many of them stand before a mark.
WIDTH, BEFORE, CUT = 72, 40, "..."


def explained(line, folder, goal=None):
    """What explains a refusal, in lines. `folder` has the modules; `goal` is the text of the goal, where that was refused."""
    return [*pointed_at(line, folder, goal), *said_of(line)]


def pointed_at(line, folder, goal):
    """The line of a text to which a refusal points, and under it a mark: at the column, or under all of it where none is told."""
    if offset := OFFSET.search(line):
        text = text_of(offset[1], folder, goal)
        before = text[: int(offset[2])].split(b"\n")
        number, column = len(before), len(as_shown(before[-1])) + 1
    elif place := PLACE.search(line):
        text = text_of(place[1], folder, goal)
        number, column = int(place[2]), int(place[3] or 0)
    else:
        return []
    # One line, or none where the text has changed and is shorter by now.
    found = [excerpt(as_shown(each).rstrip(), column) for each in text.split(b"\n")[number - 1 : number]]
    return [f"    {part}" for shown, at in found for part in (shown, mark(shown, at))]


def text_of(module, folder, goal):
    """The bytes of a text, or none where its file can't be read any longer."""
    if goal is not None:
        return goal.encode(errors="surrogateescape")
    try:
        return pathlib.Path(folder, module.replace(".", "/") + ".curry").read_bytes()
    except OSError:
        return b""


def as_shown(line):
    """A line with spaces for its tabs: so its characters stand in the columns that refusals count. What can't be shown is replaced."""
    text = line.decode("utf-8-sig", errors="replace").expandtabs(8)
    return "".join(letter if letter.isprintable() else "\N{REPLACEMENT CHARACTER}" for letter in text)


def excerpt(line, column):
    """A line, or the part of a long one that has a column, and the column's place in what is left."""
    begin = max(0, column - BEFORE) if len(line) > WIDTH else 0
    before, after = CUT if begin else "", CUT if len(line) > begin + WIDTH else ""
    return before + line[begin : begin + WIDTH] + after, column and column - begin + len(before)


def mark(line, column):
    """A mark under a column, or under all of the line where the column is 0."""
    if column:
        return " " * sum(map(places, line[: column - 1])) + "^"
    return re.sub(r"\S.*", lambda part: "^" * sum(map(places, part[0])), line)


def places(letter):
    """How many places of a terminal's line a character takes."""
    if unicodedata.combining(letter):
        return 0
    return 2 if unicodedata.east_asian_width(letter) in "WF" else 1


def said_of(line):
    """Why the refusal comes and what to do, by the manual's table of refusals."""
    number = re.match(r"refused \d+ ", line)
    for row in MANUAL.read_text().splitlines() if number else []:
        cells = [cell.strip().replace(r"\|", "|") for cell in re.split(r"(?<!\\)\|", row)[1:-1]]
        if row.startswith(f"| `{number[0]}") and len(cells) == CELLS:
            return [f"Why: {cells[1]}", f"What to do: {cells[3]}"]
    return []
