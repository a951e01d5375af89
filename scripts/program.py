"""The proved program: where it stands, what it is made of, and whether it is that of the sources as they are."""

import os
import pathlib
import sys

TOP = pathlib.Path(__file__).resolve().parent.parent
CRATES = TOP / "crates"
PROGRAM = CRATES / "curry" / "out" / "curry"
# Its time is that at which the proof of the program began.
STAMP = PROGRAM.with_name("built")


def below():
    """Each crate of crates.txt, in its order, with the crates that it names."""
    lines = (TOP / "crates.txt").read_text().splitlines()
    pairs = [line.split(":") for line in lines if line and not line.startswith("#")]
    return {name: names.split() for name, names in pairs}


def needed():
    """The program's crate and all that it stands on, in the order of crates.txt."""
    crates, found, left = below(), set(), ["curry"]
    while left:
        name = left.pop()
        if name in crates and name not in found:
            found.add(name)
            left += crates[name]
    return [name for name in crates if name in found]


def sources(crate):
    """The files of a crate that its proof reads: all but what is built and its must-fail edits."""
    for folder, inner, names in os.walk(CRATES / crate):
        inner[:] = [name for name in inner if name not in ("out", "must-fail")]
        for name in names:
            yield os.path.join(folder, name)


def is_up_to_date():
    """Whether the proved program stands here and no source that it is made of has changed since its proof began."""
    if not os.access(PROGRAM, os.X_OK) or not STAMP.exists():
        return False
    began = STAMP.stat().st_mtime_ns
    files = [TOP / "crates.txt", *(file for crate in needed() for file in sources(crate))]
    return all(os.stat(file).st_mtime_ns <= began for file in files)


def need_proved():
    """Ends a script that is to run the proved program where that isn't built, or its sources have changed."""
    if not is_up_to_date():
        sys.exit("no proved program of these sources stands here: .ci/run makes it, and so does ./prove")
