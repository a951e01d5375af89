"""Runs the sources as they are, with no proof, by the toolchain's `rt try`.

It builds what it runs, and keeps nothing of that. The program runs in a new folder, with copies of the files that it is given by
their names there; what it wrote comes when it has ended.
"""

import errno
import pathlib
import re
import subprocess
import tempfile

import program

SECONDS = 600
# Of one command of many.
SECONDS_EACH = 60
NAME = rb"[A-Za-z][\w']*(?:\.[A-Za-z][\w']*)*"
ENDED = re.compile(rb"^run=ended status=(\d+) .*proved=no\n\Z", re.MULTILINE)
REASON = re.compile(rb"^checked: (?:no-answer:|fault) (.*)", re.MULTILINE)


class NoAnswer(Exception):
    """Why there is no answer by this way, and what the toolchain said."""

    def __init__(self, why, said=b""):
        super().__init__(why)
        self.said = said


def redirected(words, given):
    """The words with another folder after each --dir, and the folder that it stands for, if there is one."""
    words, folder = list(words), None
    for place, word in enumerate(words):
        if word.startswith("--dir=") and word != "--dir=":
            words[place], folder = f"--dir={given}", word.removeprefix("--dir=")
        elif place and words[place - 1] == "--dir" and word and not word.startswith("-"):
            words[place], folder = given, word
    return words, folder


def checked(words):
    """The place of the file that a `check` reads among its words, if they name one."""
    taken = [place for place, word in enumerate(words) if word in ("--", "--dir") or word.startswith("--dir=")]
    left = [place for place in range(1, len(words)) if place not in taken and words[place - 1] != "--dir"]
    return left[1] if words[:1] == ["check"] and len(left) == 2 else None


def modules(words, folder):
    """The files of a folder that the program may ask for: those of modules whose names are words, or stand in such a file."""
    found, left = {}, {name for name in words if re.fullmatch(NAME, name.encode())}
    while left:
        path = left.pop().replace(".", "/") + ".curry"
        file = pathlib.Path(folder, path).absolute()
        if path in found:
            continue
        try:
            text = file.read_bytes()
        except OSError as error:
            if error.errno in (errno.ENOENT, errno.ENAMETOOLONG):
                continue
            raise NoAnswer(f"{file}: {error.strerror}; only the proved program can answer to this") from error
        found[path] = file
        left |= {name.decode() for name in re.findall(NAME, text)}
    return found


def tried(words, files, seconds=SECONDS):
    """What `rt try` writes and says of the program, with these words of its own and these files by their names."""
    data = [part for name, file in files.items() for part in ("--data", f"{name}={file}")]
    command = ["rt", "try", "--seconds", str(seconds), *data, *words]
    pipes = {"stdin": subprocess.DEVNULL, "stdout": subprocess.PIPE, "stderr": subprocess.PIPE}
    try:
        run = subprocess.Popen(command, cwd=program.CRATES / "curry", **pipes)
    except OSError as error:
        raise NoAnswer(f"the toolchain's command rt can't be run: {error.strerror}") from error
    try:
        return run.communicate()
    except KeyboardInterrupt:
        # rt is told to stop too, and clears away what it made.
        run.wait()
        raise


def answer(words):
    """What the program writes for these words in the folder of the caller, and its status."""
    try:
        "".join(words).encode()
    except UnicodeEncodeError as error:
        raise NoAnswer("a word isn't UTF-8; only the proved program can answer to this") from error
    words, folder = redirected(words, "given")
    files = modules(words, folder or ".")
    given = {f"given/{name}" if folder else name: file for name, file in files.items()}
    place = checked(words)
    if place and pathlib.Path(words[place]).exists():
        if words[place].startswith("/") or ".." in pathlib.Path(words[place]).parts:
            raise NoAnswer("the file isn't below this folder; only the proved program can answer to this")
        given[words[place]] = pathlib.Path(words[place]).absolute()
    written, said = tried(["--", *words], given)
    ended = ENDED.search(said)
    if ended:
        return written, int(ended[1])
    reason = REASON.search(said)
    raise NoAnswer(f"no answer: {reason[1].decode(errors='replace')}" if reason else "the sources can't be built", said)


def in_folder(words, folder):
    """The words with which a command finds its modules, and its file, where its files are laid out in this folder."""
    words, place = list(words), checked(words)
    if place:
        words[place] = f"{folder}/{words[place]}"
    _, named = redirected(words, folder)
    if named:
        return redirected(words, f"{folder}/{named}")[0]
    if words[:1] in (["solve"], ["compile"], ["check"]):
        return [words[0], "--dir", folder, *words[1:]]
    return words


def lay_out(runs, room):
    """Puts files and cases for `rt try` into a room, and tells the files by the names that the program knows them by."""
    files, folders = {}, {id(run.files): f"files{number}" for number, run in enumerate(runs)}
    (room / "cases").mkdir()
    for number, run in enumerate(runs):
        folder, case = folders[id(run.files)], room / "cases" / f"{number}"
        for name, text in run.files.items():
            file = room / folder / name
            file.parent.mkdir(parents=True, exist_ok=True)
            file.write_bytes(text)
            files[f"{folder}/{name}"] = file
        case.write_bytes(b"")
        # The program knows a file that isn't there by another name too.
        missing = b"refused 32 MissingFile "
        case.with_suffix(".stdout").write_bytes(run.written.replace(missing, missing + f"{folder}/".encode()))
        if run.words:
            case.with_suffix(".args").write_text("".join(word + "\n" for word in in_folder(run.words, folder)))
    return files


def compared(runs):
    """Runs commands of listings by one build. Tells of each whether it wrote what is wanted, its status, which is None where it
    didn't end in time, and what rt said."""
    with tempfile.TemporaryDirectory() as room:
        files = lay_out(runs, pathlib.Path(room))
        _, said = tried(["--cases", f"{room}/cases"], files, SECONDS_EACH)
    found, lines = {}, []
    for line in said.decode(errors="replace").splitlines():
        lines.append(line)
        if line.startswith("case="):
            fields = dict(field.split("=", 1) for field in line.split())
            status = fields.get("status")
            found[int(fields["case"])] = fields.get("output") == "expected", status and int(status), "\n".join(lines)
            lines = []
    if not found:
        raise NoAnswer("the sources can't be built", said)
    return [found.get(number, (False, None, "")) for number in range(len(runs))]
