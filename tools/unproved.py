"""The programs built unproved, and kept in build/unproved/ until a source changes.

`rt try` builds a program, runs it and keeps nothing. So the program is run on a pipe that nobody writes: while it waits
there, its executable is copied, with the command line that started it. That takes Linux, as `rt try` does.
"""
import os, pathlib, shlex, shutil, subprocess, sys, tempfile, time

from common import BUILD, CRATES, PROGRAM, Clock, crates_of, need_prover, say, sources, sum_of

KEPT = BUILD / "unproved"
# The arguments before the pipe from which a program reads.
READING = {PROGRAM: ["dump"]}


def words_of(process):
    try:
        return pathlib.Path("/proc", process, "cmdline").read_text(errors="surrogateescape").split("\0")[:-1]
    except OSError:
        return []


def started(room, words):
    """What started the program with these arguments: the words before them, and which of these is the executable, below the room."""
    for process in filter(str.isdigit, os.listdir("/proc")):
        found = words_of(process)
        start, rest = found[: -len(words)], found[-len(words) :]
        made = [at for at, word in enumerate(start) if word.startswith(f"{room}/") and os.access(word, os.X_OK)]
        if rest == words and made:
            return start, made[0]
    return None


def opened(pipe, ran):
    """The writing end of a pipe, once somebody reads there; None where the command ends before."""
    while ran.poll() is None:
        try:
            return os.open(pipe, os.O_WRONLY | os.O_NONBLOCK)
        except OSError:
            time.sleep(0.1)
    return None


def keep(name, start, at, mark):
    """Keeps the executable, and a script that starts it as `rt try` did."""
    with tempfile.TemporaryDirectory(dir=BUILD) as new:
        new = pathlib.Path(new)
        shutil.copy(start[at], new / f"{name}.program")
        before, behind = (" ".join(map(shlex.quote, words)) for words in (start[:at], start[at + 1 :]))
        script = new / name
        script.write_text(
            "#!/bin/sh\n# The program as built without any proof.\n"
            f'exec {before} "$(dirname "$(realpath "$0")")"/{name}.program {behind} "$@"\n'
        )
        script.chmod(0o755)
        (new / f"{name}.sources").write_text(mark)
        KEPT.mkdir(exist_ok=True)
        for path in new.iterdir():
            os.replace(path, KEPT / path.name)


def build(name, mark):
    with tempfile.TemporaryDirectory(prefix="omf-unproved-") as room:
        pipe, told = os.path.join(room, "pipe"), os.path.join(room, "told")
        os.mkfifo(pipe)
        os.mkdir(os.path.join(room, "made"))
        words = [*READING.get(name, []), pipe]
        with open(told, "wb") as file:
            how = {"cwd": CRATES / name, "stdin": subprocess.DEVNULL, "stdout": file, "stderr": file}
            ran = subprocess.Popen(["rt", "try", "--", *words], env={**os.environ, "TMPDIR": f"{room}/made"}, **how)
            writing = found = None
            try:
                writing = opened(pipe, ran)
                found = started(f"{room}/made", words)
                if found:
                    keep(name, *found, mark)
            finally:
                ran.terminate()
                ran.wait()
                if writing is not None:
                    os.close(writing)
        if not found:
            sys.stderr.write(pathlib.Path(told).read_text(errors="replace"))
            sys.exit(f"rt try did not build {name}, or not as a process that is found: see above")


def program(name=PROGRAM):
    """The path of an unproved program, built anew where its sources aren't those of the last build."""
    need_prover()
    made = KEPT / name
    mark = sum_of(path for crate in crates_of(name) for path in sources(crate, "src"))
    last = KEPT / f"{name}.sources"
    if not (made.exists() and last.exists() and last.read_text() == mark):
        BUILD.mkdir(exist_ok=True)
        clock = Clock()
        say(f"Building {name} unproved, which takes a minute or two of a processor..")
        build(name, mark)
        say(f"{clock}  built to {os.path.relpath(made)}")
    return made


def chosen(name=PROGRAM):
    """The path of a program that a tool runs: `omf` at the path OMF of the environment, and the others beside it, where their names end as
    that one does; where it isn't set the proved one, else an unproved one."""
    given = os.environ.get("OMF")
    if given:
        folder, own = os.path.split(given)
        given = os.path.join(folder, name + own.removeprefix(PROGRAM)) if name != PROGRAM else given
        if not os.access(given, os.X_OK):
            sys.exit(f"{given}: it is no program that can be run")
    made = BUILD / name
    return given or str(made if made.exists() else program(name))
