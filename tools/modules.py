"""Programs as modules of LLVM, which are compiled for other systems: proved ones, where `tools/port prove` left them, and unproved ones.

Both are kept in build/ports/modules/ until a source changes. Of a program that the gate has just proved there is the object alone."""
import hashlib, re, shutil, subprocess, sys

import built, kit
from built import PARTS
from common import BUILD, CRATES, Clock, crates_of, need_prover, say, sources, sum_of

PORTS = BUILD / "ports"
KEPT = PORTS / "modules"
# The flags for the toolchain's compiler that are of one target, of one kind of run, or that name files.
OWN_FLAGS = re.compile(
    r"--(target|sysroot)=|-m(arch|cpu)=|-f(PIE|PIC|function-sections|data-sections|sanitize=)|-O|-[cox]$|ir$|-Werror|.*\.(bc|o)$"
)
# What the module of an unproved program is for.
PROCESSOR = "x86_64"
# The flags with which the toolchain proves a program and compiles it for a processor.
FOR = {"x86_64": "--cpu=x86-64", "aarch64": "--target=aarch64-unknown-linux-gnu"}


class Module:
    """A program as a module: where it lies, with the flags that the toolchain compiles it with."""

    def __init__(self, name, processor, proved):
        self.name, self.processor, self.proved = name, processor, proved
        self.path = KEPT / f"{name}-{processor if proved else 'unproved'}.bc"
        self.flags_path, self.mark = self.path.with_suffix(".flags"), self.path.with_suffix(".sources")
        # What the toolchain made of it by itself.
        self.object = self.path.with_suffix(".o")

    def sum(self):
        parts = PARTS if self.proved else ("src",)
        return sum_of(path for crate in crates_of(self.name) for path in sources(crate, *parts))

    def is_current(self):
        return self.path.exists() and self.mark.exists() and self.mark.read_text() == self.sum()

    def flags(self):
        """The toolchain's flags that hold for each target: they steer clear of what LLVM is known to do wrong."""
        words = self.flags_path.read_text().splitlines()
        return [word for word in words if not OWN_FLAGS.match(word)]

    def take(self, kept, mark, made=None):
        KEPT.mkdir(parents=True, exist_ok=True)
        shutil.copy(kept / "flags", self.flags_path)
        if made:
            shutil.copy(made, self.object)
        shutil.copy(kept / "module.bc", self.path)
        self.mark.write_text(mark)

    def text(self):
        """The module as text."""
        ran = subprocess.run(
            [kit.clang(), "--no-default-config", "-x", "ir", "-S", "-emit-llvm", "-Xclang", "-disable-llvm-passes", self.path, "-o", "-"],
            capture_output=True, text=True, check=True,
        )
        return ran.stdout


def attempt(rt, verb, name, *flags):
    """All that a command of the toolchain prints in a crate's folder."""
    how = {"cwd": CRATES / name, "stdin": subprocess.DEVNULL, "stdout": subprocess.PIPE, "stderr": subprocess.STDOUT}
    return subprocess.run([rt, verb, *flags], text=True, errors="replace", **how).stdout


def unproved(name):
    """The unproved module of a program, made anew where a source changed."""
    need_prover()
    module, clock = Module(name, PROCESSOR, proved=False), Clock()
    mark = module.sum()
    if not module.is_current():
        with kit.keeping() as (rt, kept):
            told = attempt(rt, "try", name)
            if not (kept / "flags").exists() or "-fsanitize=address" not in (kept / "flags").read_text():
                sys.exit(f"rt try did not make a module of {name}:\n{told}")
            module.take(kept, mark)
        say(f"{clock}  {name}: its module is made, unproved")
    return module


def prove(name, processor):
    """Proves a program for a processor, over the libraries that are proved here, and keeps its module and object. Returns whether it is
    proved. For arm64 the toolchain can't link what it has proved and compiled, so its status says nothing."""
    module, clock = Module(name, processor, proved=True), Clock()
    mark, made = module.sum(), CRATES / name / "out" / f"{name}.o"
    if module.is_current():
        return True
    made.unlink(missing_ok=True)
    with kit.keeping() as (rt, kept):
        told = attempt(rt, "run", name, FOR[processor])
        verdict = re.search(r"(?m)^logic=proved .*$", told)
        if not verdict or not made.exists() or module.sum() != mark:
            say(f"{told}\n{name} wasn't proved for {processor}, or a source changed meanwhile")
            return False
        module.take(kept, mark, made)
    say(f"{clock}  {name} is proved for {processor}: {verdict[0]}")
    return True


class OfGate:
    """A program that the gate has proved for x86-64, of the sources as they are, as the object that it left."""

    proved = True

    def __init__(self, name):
        self.name, self.object = name, CRATES / name / "out" / f"{name}.o"

    def is_current(self):
        return built.is_of_gate(self.object) and built.sum_at_gate() == built.THE_PROGRAMS.sum_of_sources()

    def sum(self):
        return hashlib.sha256(self.object.read_bytes()).hexdigest()


def proved(name, processor, as_object):
    """The proved module of a program for a processor, or, where the object alone is enough, what the gate left; None, where neither is there
    of the sources as they are."""
    found = [Module(name, processor, proved=True), *([OfGate(name)] if as_object and processor == PROCESSOR else [])]
    return next((it for it in found if it.is_current()), None)


def chosen(name, processor, as_object):
    return proved(name, processor, as_object) or unproved(name)
