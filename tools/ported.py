"""Programs built for other systems, run here: commands at the edges of what a system does, and the tests that every program passes."""
import os, pathlib, shutil, subprocess, tempfile

from common import PROGRAM, TOP
from modules import PORTS

# The most bytes that a file may have.
MOST = 16_777_216
HELLO = TOP / "examples" / "hello"
SMALL = "MAIN START\n     RTL\n     END\n"
# Where output goes.
KEPT, FULL, CLOSED = "kept", "to a full device", "closed"
# What is tried, the words of the command, and where its output goes.
EDGES = (
    ("no words", [], KEPT),
    ("a word too many", ["dump", "small.o", "small.o"], KEPT),
    ("a path that is missing", ["dump", "missing"], KEPT),
    ("a folder that is missing", ["asm", "small.s", "missing/small.o"], KEPT),
    ("an empty path", ["dump", ""], KEPT),
    ("a folder to read", ["dump", "folder"], KEPT),
    ("a folder to write", ["asm", "small.s", "folder"], KEPT),
    ("a path below a file", ["dump", "small.s/inner"], KEPT),
    ("a name of 300 bytes", ["dump", "n" * 300], KEPT),
    ("umlauts in names", ["asm", "größe/übung.s", "größe/übung.o"], KEPT),
    ("an umlaut in a fault", ["dump", "größe/fehlt.o"], KEPT),
    ("blanks in names", ["asm", "two words/small.s", "two words/small.o"], KEPT),
    ("every byte, and an end of file in the middle", ["dump", "bytes"], KEPT),
    ("lines that end with CR LF", ["asm", "windows.s", "windows.o"], KEPT),
    ("a file of 16 MB", ["dump", "whole"], KEPT),
    ("16 MB and a byte", ["dump", "beyond"], KEPT),
    ("output to a full device", ["dump", "small.o"], FULL),
    ("output that is closed", ["dump", "small.o"], CLOSED),
    ("output over the input", ["asm", "again.s", "again.s"], KEPT),
    ("several paths up and down", ["dump", "./folder/../small.o"], KEPT),
)


def fill(room):
    """Puts the files of the edges into a folder."""
    for folder in ("folder", "größe", "two words"):
        (room / folder).mkdir()
    for path in ("small.s", "again.s", "größe/übung.s", "two words/small.s"):
        (room / path).write_text(SMALL)
    (room / "windows.s").write_bytes(SMALL.replace("\n", "\r\n").encode())
    shutil.copy(HELLO / "files" / "sub.o", room / "small.o")
    (room / "bytes").write_bytes((HELLO / "files" / "sub.o").read_bytes() + bytes(range(256)))
    for name, size in (("whole", MOST), ("beyond", MOST + 1)):
        with open(room / name, "wb") as file:
            file.truncate(size)


def files_of(room):
    """What lies in a folder: each file with its bytes."""
    return {str(path.relative_to(room)): path.read_bytes() for path in sorted(room.rglob("*")) if path.is_file()}


def environment():
    """Wine has a folder of its own in build/, and says nothing of itself."""
    own = {"WINEPREFIX": str(PORTS / "wine"), "WINEDEBUG": "-all", "WINEDLLOVERRIDES": "mscoree=;mshtml=;winemenubuilder.exe="}
    return {**os.environ, **own, "LC_ALL": "C.UTF-8"}


def answer(start, words, output, room):
    """What a command answers: its status, what it prints, and what lies in the folder then."""
    command = [*start, *words]
    if output == CLOSED:
        command = ["sh", "-c", '"$@" >&-', "sh", *command]
    how = {"cwd": room, "env": environment(), "stdin": subprocess.DEVNULL, "stderr": subprocess.PIPE, "timeout": 120}
    with open("/dev/full" if output == FULL else os.devnull, "wb") as elsewhere:
        try:
            ran = subprocess.run(command, stdout=subprocess.PIPE if output == KEPT else elsewhere, **how)
        except subprocess.TimeoutExpired:
            return "no end", b"", b"", {}
    return ran.returncode, ran.stdout or b"", ran.stderr, files_of(room)


def answers(start):
    """What each edge answers, of the program that these words start."""
    with tempfile.TemporaryDirectory(prefix="omf-edges-") as room:
        room = pathlib.Path(room)
        # At its first run wine makes its folder, and says so.
        answer(start, [], KEPT, room)
        fill(room)
        return [answer(start, words, output, room) for _, words, output in EDGES]


def started(target, name=PROGRAM):
    """The words that start a program that was built for a target."""
    return [*([target.runner] if target.runner else []), str(target.program(name))]


def differences(known, found):
    """The edges whose answers aren't those that are known."""
    parts = ("status", "output", "faults", "files")
    for (name, _, _), one, other in zip(EDGES, known, found):
        wrong = [part for part, is_one, is_other in zip(parts, one, other) if is_one != is_other]
        if wrong:
            yield f"{name}: another {', another '.join(wrong)} ({one[0]} {one[1][:80]} and {other[0]} {other[1][:80]})"


def starter(target, name, room):
    """A script that starts a program, for what wants a path."""
    path = room / name
    words = " ".join(f"{key}='{text}'" for key, text in environment().items() if key.startswith("WINE"))
    path.write_text(f"#!/bin/sh\n{words} exec {' '.join(started(target, name))} \"$@\"\n")
    path.chmod(0o755)
    return path
