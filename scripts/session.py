"""The protocol of `curry session`, as a client speaks it.

The program reads lines and replies to each before it reads the next one:

    load MODULE, ask GOAL, limits NAME VALUE    one line: `ok`, or why not
    next                                        the next lines of the goal's listing, and then a line `.`
    quit                                        `bye`, and the program ends

So a client writes a line only when it has read the whole reply to the one before it. docs/MANUAL.md says more, under "Sessions".
"""

import collections
import os
import select
import subprocess

# The most bytes of one read, and the seconds after which a wait looks whether it is over.
PIECE, TICK = 1 << 16, 0.1
CAUSES = {6: "a file couldn't be read", 7: "its output was closed", 8: "memory ran out"}


class Unanswered(Exception):
    """A reply isn't there yet, and is waited for no longer."""


class Ended(Exception):
    """The program has ended, and why."""


class Session:
    """A program that serves a session, in the folder of the modules. `is_enough` tells whether a wait for a reply is over."""

    def __init__(self, command, folder, is_enough):
        # In a process group of its own, Ctrl-C doesn't reach it. On a terminal it might show its progress, beside the prompt.
        pipes = {"stdin": subprocess.PIPE, "stdout": subprocess.PIPE, "stderr": subprocess.DEVNULL}
        self.process = subprocess.Popen([command, "session"], cwd=folder, start_new_session=True, bufsize=0, **pipes)
        # A write takes as much as there is room for, and doesn't wait for more.
        os.set_blocking(self.process.stdin.fileno(), False)
        self.is_enough = is_enough
        # Lines that were read but not taken yet, and the pieces that were read of the line after them.
        self.lines, self.begun = collections.deque(), []
        # Whether a goal is open, whose listing may have more lines, and whether the reply to a `next` wasn't taken to its end.
        self.is_open = self.is_due = False

    def request(self, line):
        """The reply to a line, where that is one line."""
        self.write(line)
        reply = self.read()
        if reply == "line too long":
            raise Ended(reply)
        if reply == "ok" and not line.startswith("limits "):
            self.is_open = line.startswith("ask ")
        return reply

    def next_lines(self):
        """The next lines of the listing of the goal that is open; where none is, `next` would be replied to by `no question`. Where a
        wait for them was given up before, this goes on with it."""
        if not self.is_due:
            self.write("next")
            self.is_due = True
        while (line := self.read()) != ".":
            # Answers begin with their round, as `[4] 0` does. The last line of a listing doesn't.
            self.is_open = line.startswith("[")
            yield line
        self.is_due = False

    def write(self, line):
        """Writes a line. Raises Unanswered where it isn't taken and the wait is over."""
        left = line.encode(errors="surrogateescape") + b"\n"
        while left:
            if select.select([], [self.process.stdin], [], TICK)[1]:
                try:
                    left = left[self.process.stdin.write(left) or 0 :]
                except BrokenPipeError:
                    # The program has ended. What is read after this tells so.
                    return
            elif self.is_enough():
                raise Unanswered

    def read(self):
        """The next line that the program writes. Raises Unanswered where the wait is over."""
        while not self.lines:
            if self.is_enough():
                raise Unanswered
            if select.select([self.process.stdout], [], [], TICK)[0]:
                self.take(self.process.stdout.read(PIECE))
        return self.lines.popleft().decode(errors="replace")

    def take(self, piece):
        """Takes what was read, or nothing where the program has ended."""
        if not piece:
            status = self.process.wait()
            raise Ended(CAUSES.get(status, f"signal {-status}" if status < 0 else f"the program's status is {status}"))
        first, *others = piece.split(b"\n")
        self.begun.append(first)
        for other in others:
            self.lines.append(b"".join(self.begun))
            self.begun = [other]

    def end(self):
        """Ends the program, whatever it does."""
        self.process.kill()
        self.process.wait()
        self.process.stdin.close()
        self.process.stdout.close()
