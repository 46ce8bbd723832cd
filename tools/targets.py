"""The systems for which the programs are built, and how: the rows of docs/PORTS.md."""
import hashlib, os, pathlib, re, shutil, subprocess, tempfile

import kit, modules
from common import PROGRAM, PROGRAMS, TOP, Clock, say

SHIMS = TOP / "ports"
# Where a system's calls differ from Linux's, those of a module go to ports/ under other names.
CALLS = "open|read|write|close|statx|__sysv_signal"
# What a module says of the processor and of the stack's probes, which holds for Linux alone.
OF_LINUX = re.compile(r' "(?:probe-stack|stack-probe-size|target-cpu|target-features)"="[^"]*"')
# How far an unproved module is optimized, which is to be quick, and a proved one.
LEVELS = {False: "-O0", True: "-O2"}
X86 = "e-m:{}-p270:32:32-p271:32:32-p272:64:64-i64:64-i128:128-f80:128-n8:16:32:64-S128"
ARM_ELF = "e-m:e-p270:32:32-p271:32:32-p272:64:64-i8:8:32-i16:16:32-i64:64-i128:128-n32:64-S128-Fn32"
ARM_MACH = "e-m:o-p270:32:32-p271:32:32-p272:64:64-i64:64-i128:128-n32:64-S128-Fn32"


class Target:
    """A system: its name here and LLVM's, how LLVM lays its data out, what links for it and what runs its programs, if these are there."""

    def __init__(self, name, triple, layout, shims, linker=None, runner=None, renames=False, ending="", links=()):
        self.name, self.triple, self.layout, self.shims = name, triple, layout, shims
        self.linker, self.runner, self.renames, self.ending, self.links = linker, runner, renames, ending, list(links)
        self.processor = triple.partition("-")[0].replace("arm64", "aarch64")
        self.folder = modules.PORTS / name

    def needed(self):
        return [name for name in (self.linker, self.runner) if name]

    def absent(self):
        """What it takes to build and run here, and isn't there."""
        return [name for name in self.needed() if not shutil.which(name)]

    def is_linux(self):
        return "-linux-" in self.triple

    def is_windows(self):
        return "-windows-" in self.triple

    def edited(self, text):
        """A module's text for this system."""
        text = re.sub(r"(?m)^target datalayout = .*$", f'target datalayout = "{self.layout}"', text, count=1)
        text = re.sub(r"(?m)^target triple = .*$", f'target triple = "{self.triple}"', text, count=1)
        text = OF_LINUX.sub("", text)
        return re.sub(rf"@({CALLS})\(", r"@port_\1(", text) if self.renames else text

    def compile(self, text, flags, level, to):
        """Compiles a module's text to an object."""
        with tempfile.NamedTemporaryFile("w", suffix=".ll", prefix="omf-port-") as file:
            file.write(self.edited(text))
            file.flush()
            own = ["-fPIE", "-ffunction-sections", "-fdata-sections"] if self.is_linux() else []
            words = [kit.clang(), *flags, "--no-default-config", f"--target={self.triple}", *own, level, "-Werror", "-c", "-x", "ir"]
            subprocess.run([*words, file.name, "-o", to], check=True)

    def heap(self, room):
        """ports/heap.c as an object: for Windows it is compiled as for Linux before."""
        text = subprocess.run(
            [kit.clang(), "--no-default-config", "--target=x86_64-unknown-linux-gnu", "-O2", "-S", "-emit-llvm", SHIMS / "heap.c", "-o", "-"],
            capture_output=True, text=True, check=True,
        ).stdout
        made = room / "heap.o"
        self.compile(text, [], "-O2", made)
        return made

    def parts(self, room):
        """What a program is linked with besides its own object."""
        if not self.shims:
            return kit.archives()
        paths = [SHIMS / name for name in self.shims]
        return [self.heap(room) if path.name == "heap.c" and self.is_windows() else path for path in paths]

    def object_of(self, module):
        """The object of a module: what the toolchain made where it knows the target, else what is compiled here."""
        to = self.folder / f"{module.name}.o"
        if self.is_linux() and module.proved:
            shutil.copy(module.object, to)
        else:
            self.compile(module.text(), module.flags(), LEVELS[module.proved], to)
        return to

    def link(self, made, to):
        with tempfile.TemporaryDirectory(prefix="omf-port-") as room:
            command = [self.linker, "-O2", *self.links, made, *self.parts(pathlib.Path(room))]
            subprocess.run([*command, *(["-lshell32"] if self.is_windows() else []), "-o", to], check=True)

    def program(self, name=PROGRAM):
        """Where a program lies; its object, where nothing links it here."""
        return self.folder / (f"{name}{self.ending}" if self.linker else f"{name}.o")

    def made_of(self, name):
        """The file that says of which module a program was built."""
        return self.folder / f"{name}.made"

    def mark(self, module):
        """What a program is built of: whether its module is proved, and the sums of the module's sources and of what this target adds."""
        added = hashlib.sha256(repr((self.triple, self.layout, self.links)).encode())
        for name in self.shims:
            added.update((SHIMS / name).read_bytes())
        return f"{'proved' if module.proved else 'unproved'} {module.sum()} {added.hexdigest()}\n"

    def is_made_of(self, module):
        made = self.made_of(module.name)
        return self.program(module.name).exists() and made.exists() and made.read_text() == self.mark(module)

    def proved(self, name):
        return modules.proved(name, self.processor, self.is_linux())

    def build(self, name=PROGRAM):
        """Builds a program, or its object where nothing links it here, where it isn't built of its module yet."""
        module, clock = modules.chosen(name, self.processor, self.is_linux()), Clock()
        if not self.is_made_of(module):
            self.folder.mkdir(parents=True, exist_ok=True)
            mark, made = self.mark(module), self.object_of(module)
            if self.linker:
                self.link(made, self.program(name))
            self.made_of(name).write_text(mark)
            say(f"{clock}  {os.path.relpath(self.program(name))}, {'proved' if module.proved else 'unproved'}")

    def is_proved(self, name=PROGRAM):
        """Whether what was built last was built of a proved module."""
        return self.made_of(name).read_text().startswith("proved ")

    def is_ready(self):
        """Whether all programs are built of proved modules, and no source changed since."""
        found = [self.proved(name) for name in PROGRAMS]
        return all(module and self.is_made_of(module) for module in found)


LINUX_SHIMS = ("heap.c", "start.c")
ONE_FILE = ["-static-pie", "-s"]
# Windows gives a program less stack than Linux where it doesn't ask for more, and its linker writes the time into it.
FOR_WINDOWS = ["-static", "-s", "-Wl,--no-insert-timestamp", "-Wl,--stack,8388608"]
WINDOWS_SHIMS = ("heap.c", "windows.c", "windows_start.c")
MAC_SHIMS = (*LINUX_SHIMS, "macos.c")
ARM_LINKER, WINDOWS_LINKER = "aarch64-linux-gnu-gcc", "x86_64-w64-mingw32-gcc"
TARGETS = (
    Target("linux-x86_64", "x86_64-unknown-linux-gnu", X86.format("e"), (), "cc", links=ONE_FILE),
    Target("linux-arm64", "aarch64-unknown-linux-gnu", ARM_ELF, LINUX_SHIMS, ARM_LINKER, "qemu-aarch64-static", links=ONE_FILE),
    Target(
        "windows-x86_64", "x86_64-w64-windows-gnu", X86.format("w"), WINDOWS_SHIMS, WINDOWS_LINKER, "wine",
        renames=True, ending=".exe", links=FOR_WINDOWS,
    ),
    Target("macos-arm64", "arm64-apple-macosx11.0.0", ARM_MACH, MAC_SHIMS, renames=True),
    Target("macos-x86_64", "x86_64-apple-macosx11.0.0", X86.format("o"), MAC_SHIMS, renames=True),
)
