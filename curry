#!/usr/bin/env python3
"""Runs the system with the words given, in the caller's folder.

Where the proved program stands and its sources are as they were, it runs. Otherwise the sources are built and run as they are, with
no proof. Where that gives no answer, a line on standard error says why, and the status is one that the program never has.
"""

import os
import pathlib
import sys

sys.dont_write_bytecode = True
sys.path.insert(0, str(pathlib.Path(__file__).resolve().parent / "scripts"))
import program

NOT_WRITTEN, NO_ANSWER, INTERRUPTED = 7, 70, 130


def say(text):
    print(f"curry: {text}", file=sys.stderr, flush=True)


def has_written(text):
    """Writes to standard output, and tells whether it took all."""
    try:
        while text:
            text = text[os.write(1, text) :]
    except OSError:
        return False
    return True


def run_unproved(words):
    """Runs the sources as they are, and tells the status."""
    import unproved

    why = "no proved program of these sources stands here"
    if words == ["session"]:
        say(f"{why}, and no other one reads lines as they come; {program.TOP}/prove makes it")
        return NO_ANSWER
    say(f"{why}, so this runs them unproved, which takes minutes; {program.TOP}/prove makes the proved program")
    try:
        written, status = unproved.answer(words)
    except unproved.NoAnswer as error:
        sys.stderr.buffer.write(error.said)
        say(error)
        return NO_ANSWER
    except KeyboardInterrupt:
        return INTERRUPTED
    return status if has_written(written) else NOT_WRITTEN


def main():
    words = sys.argv[1:]
    if program.is_up_to_date():
        os.execv(program.PROGRAM, ["curry", *words])
    return run_unproved(words)


sys.exit(main())
