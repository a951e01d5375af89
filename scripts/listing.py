"""Reads listings: commands, with the files that they run over, what they write and their status.

Some lines begin a part, whose text are the lines after it, up to the next one that does:

    # NAME           what the commands after it show; they have the files after it and no others
    -- PATH.curry    a file, with its text; a proof is a PATH.proof
    ! full           the output of the next command takes no byte
    ! memory N       the next command may use N MiB of memory
    < input          the lines of the input of the next command, which has none otherwise
    $ curry WORDS    a command, with what it writes
    ? STATUS         the status of the command before it, which is 0 where none is told

A blank line before a name belongs to no part, nor does what stands before the first part, as how a listing was worked out. No
text of a file or an input has a line that begins a part.
"""

import re
import shlex

MARKS = {"#": r"\S+", "--": r"\S+\.(curry|proof)\S*", "!": r"full|memory \d+", "<": "input", "$": r".+", "?": r"\d+"}


class Run:
    """A command: its name, the bytes of its files by their paths, its words, what it writes and its status, what it lacks, and the
    bytes of its input."""

    def __init__(self, name, files, words, written, status=0, lacks=None, read=b""):
        self.name, self.files, self.words = name, files, words
        self.written, self.status, self.lacks, self.read = written, status, lacks or {}, read


def mark_of(line):
    """The mark with which a line begins a part, and the rest of the line, or None where it begins none."""
    mark, _, rest = line.partition(" ")
    return (mark, rest) if mark in MARKS and re.fullmatch(MARKS[mark], rest) else None


def parts(lines):
    """The parts that begin in these lines: the mark, the rest of its line, and the lines after it."""
    found = []
    for line in lines:
        begun = mark_of(line)
        if begun and begun[0] == "#" and found and found[-1][2][-1:] == [""]:
            found[-1][2].pop()
        if begun:
            found.append((*begun, []))
        elif found:
            found[-1][2].append(line)
    return found


def runs(text):
    """The commands of a listing."""
    found, name, files, lacks, read = [], None, {}, {}, b""
    for mark, rest, lines in parts(text.removesuffix("\n").split("\n")):
        below = "".join(line + "\n" for line in lines).encode()
        match mark:
            case "#":
                name, files = rest, {}
            case "--":
                files = {**files, rest: below}
            case "!":
                lack, _, number = rest.partition(" ")
                lacks[lack] = int(number or 0)
            case "<":
                read = below
            case "$":
                found.append(Run(name, files, shlex.split(rest)[1:], below, lacks=lacks, read=read))
                lacks, read = {}, b""
            case "?":
                found[-1].status = int(rest)
    return found
