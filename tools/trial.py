"""Tries what is installed below a folder, wherever that lies: each example whose files are there, each manual and completion, and a
caller of the library for C. What can't be tried on this machine is said."""
import difflib, os, pathlib, shlex, shutil, subprocess, tempfile

from common import say
from layout import COMPLETED, DOCUMENTS, as_installed

# The files of an example with lines of arguments, those with what is printed, and the program that gets the arguments.
RUNS = (
    ("commands", "output", "omf"),
    ("explain", "explained", "omf-explain"),
    ("map", "mapped", "omf_map"),
    ("expand", "expanded", "omf_expand"),
)
# Lines of the shell, which finds the programs on the path, and what is printed.
STEPS = ("steps", "stepped")


def environment(**more):
    """What a program finds that wasn't told where it lies."""
    return {**{name: text for name, text in os.environ.items() if name not in ("OMF", "MANPATH", "MAKEFLAGS", "MFLAGS", "MAKELEVEL")}, **more}


# Arguments and what is printed may be bytes that are no text.
ANY_BYTES = "surrogateescape"


def text_of(path):
    return path.read_text(encoding="utf-8", errors=ANY_BYTES)


def run(*command, **how):
    how = {"env": environment(), "stdout": subprocess.PIPE, "stderr": subprocess.PIPE, **how}
    return subprocess.run([str(word) for word in command], encoding="utf-8", errors=ANY_BYTES, **how)


def lines_of(path):
    """The lines of a file, of which the last may have no end; an empty file has none."""
    *whole, rest = text_of(path).split("\n")
    return [*whole, rest] if rest else whole


def printed(call, lines):
    """What is printed where each line is called, as examples store it."""
    for words in lines_of(lines):
        ran = call(words)
        yield f"$ {words}\n{ran.stdout}status {ran.returncode}\n"


def calls(programs, room):
    """Of each kind of lines the file with what is printed, and the call of a line."""
    how = {"cwd": room, "stderr": subprocess.STDOUT, "stdin": subprocess.DEVNULL}
    for lines, wanted, program in RUNS:
        yield lines, wanted, lambda words, program=program: run(programs / program, *words.split(), **how)
    found = environment(PATH=f"{programs}:{os.environ['PATH']}", LC_ALL="C")
    yield *STEPS, lambda words: run("sh", "-c", words, env=found, **how)


def missing(example):
    """What an example needs, and isn't on this machine."""
    needs = example / "needs"
    return [name for name in text_of(needs).split() if not shutil.which(name)] if needs.exists() else []


def faults_of_example(example, programs):
    if missing(example):
        say(f"The example {example.name} isn't run: there is no {', no '.join(missing(example))}.")
        return
    tools = [path.name.removeprefix("omf-") for path in programs.glob("omf-*")]
    with tempfile.TemporaryDirectory(prefix="omf-trial-") as room:
        if (example / "input").is_dir():
            shutil.copytree(example / "input", room, dirs_exist_ok=True)
        for lines, wanted, call in calls(programs, room):
            if (example / lines).exists():
                told, known = "".join(printed(call, example / lines)), as_installed(text_of(example / wanted), tools)
                if told != known:
                    differences = list(difflib.unified_diff(known.splitlines(), told.splitlines(), wanted, "printed", lineterm=""))
                    yield f"the example {example.name}:\n" + "\n".join(differences[:40])
        for path in sorted((example / "files").glob("*")):
            made = pathlib.Path(room, path.name)
            if path.is_file() and (not made.exists() or made.read_bytes() != path.read_bytes()):
                yield f"the example {example.name}: another file {path.name}"


def faults_of_manuals(folder):
    pages = sorted(folder.glob("share/man/man*/omf*"))
    if not shutil.which("man"):
        say("The manuals aren't shown: there is no man.")
        return
    for path in pages:
        name, section = path.name.removesuffix(".gz").rsplit(".", 1)
        ran = run("man", "-M", folder / "share" / "man", section, name, env=environment(PAGER="cat", MANPAGER="cat", MANWIDTH="80"))
        if ran.returncode or name not in ran.stdout or "NAME" not in ran.stdout:
            yield f"man {section} {name}: {ran.stderr or ran.stdout[:200]}"


def faults_of_completions(folder):
    names = sorted(path.name for path in (folder / "bin").iterdir() if path.name.startswith("omf"))
    for name in names:
        path = folder / COMPLETED / name
        ran = run("bash", "--norc", "-c", '. "$1" && complete -p "$2"', "bash", path, name)
        if ran.returncode:
            yield f"bash doesn't complete {name}: {ran.stderr}"


def faults_of_library(folder):
    """Of load.c, compiled with what pkg-config says."""
    compiler = shutil.which(os.environ.get("CC", "cc"))
    config = shutil.which("pkg-config")
    if not (folder / "lib" / "libomf.a").exists() or not compiler or not config:
        say("Nothing calls the library for C: it isn't there, or there is no compiler for C or no pkg-config.")
        return
    said = run(config, "--cflags", "--libs", "omf", env=environment(PKG_CONFIG_PATH=str(folder / "lib" / "pkgconfig")))
    sources = folder / DOCUMENTS / "c"
    with tempfile.TemporaryDirectory(prefix="omf-trial-") as room:
        # omf.h is the one that is installed, and not the one beside the source.
        shutil.copy(sources / "load.c", room)
        made = run(compiler, "load.c", *shlex.split(said.stdout), "-o", "load", cwd=room)
        ran = run("./load", cwd=room) if made.returncode == 0 else made
    if ran.returncode or ran.stdout != text_of(sources / "printed"):
        yield f"load.c, compiled by {said.stdout.strip()}: {said.stderr}{ran.stderr}{ran.stdout[:1000]}"


def faults(folder):
    """What is wrong with what is installed below a folder."""
    examples = sorted(path.parent for path in (folder / DOCUMENTS / "examples").glob("*/commands"))
    # The files of some are made, and large.
    examples = [example for example in examples if not (example / "make").exists()]
    found = [] if examples else ["no example is there"]
    for example in examples:
        found += faults_of_example(example, folder / "bin")
    for part in (faults_of_manuals, faults_of_completions, faults_of_library):
        found += part(folder)
    return found
