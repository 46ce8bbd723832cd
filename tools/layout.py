"""What is installed, and where below a prefix: the one table of which `tools/install`, `tools/dist` and their checks are made."""
import ast, re

from common import BUILD, PROGRAM, PROGRAMS, TOP, version

SHARED, DOCUMENTS = "share/omf", "share/doc/omf"
# Whole folders and patterns of the tree: the folder below the prefix, the folder of the tree, and the files there.
COPIED = (
    (DOCUMENTS, ".", ("README.md", "CHANGELOG.md", "docs/*.md", "bench/FIGURES.md", "editors/README.md")),
    (DOCUMENTS, ".", ("examples/demo", "examples/*/**/*")),
    *((f"share/man/man{number}", "man", (f"*.{number}",)) for number in (1, 5, 7)),
    ("share/zsh/site-functions", "completions", ("_omf",)),
    ("share/vim/vimfiles", "editors/vim", ("**/*",)),
    (f"{SHARED}/vscode", "editors/vscode", ("**/*",)),
    # What the tools read.
    (SHARED, ".", ("docs/ANSWERS.md",)),
)
# What goes with the library for C.
COPIED_FOR_C = (
    ("share/man/man3", "man", ("*.3",)),
    (DOCUMENTS, ".", ("c/*.c", "c/*.cpp", "c/printed", "c/run", "c/omf.h")),
)
COMPLETED = "share/bash-completion/completions"
PKG_CONFIG = """\
prefix=${{pcfiledir}}/../..
includedir=${{prefix}}/include
libdir=${{prefix}}/lib

Name: omf
Description: Apple IIGS programs assembled, linked, listed and placed in memory
Version: {version}
Cflags: -I${{includedir}}
Libs: -L${{libdir}} -lomf
"""
# How a tool is started: on the program beside it, and with no compiled module left in the shared folder.
STARTER = """\
#!/bin/sh
# Runs the tool `{tool}` of omf on the program beside this file, or on the one that OMF names.
here=$(dirname "$(realpath "$0")")
OMF=${{OMF:-$here/{program}}}
export OMF
exec python3 -B "$here/../{shared}/tools/{tool}" "$@"
"""


class Item:
    """A file below the prefix: a copy of another, or these bytes, or a link."""

    def __init__(self, path, source=None, text=None, link=None, runs=False):
        self.path, self.source, self.text, self.link, self.runs = path, source, text, link, runs

    def bytes(self):
        return self.source.read_bytes() if self.source else self.text.encode()

    def mode(self):
        return 0o755 if self.runs else 0o644


def copied(rows, tree):
    for folder, inside, patterns in rows:
        for pattern in patterns:
            for path in sorted((tree / inside).glob(pattern)):
                if path.is_file() and "__pycache__" not in path.parts:
                    yield Item(f"{folder}/{path.relative_to(tree / inside)}", path, runs=bool(path.stat().st_mode & 0o100))


def imported(path, folder):
    """The modules of a folder that a file there imports, and those that they import."""
    found, left = set(), [path]
    while left:
        for node in ast.walk(ast.parse(left.pop().read_text(encoding="utf-8"))):
            names = [it.name for it in node.names] if isinstance(node, ast.Import) else [getattr(node, "module", None)]
            for module in (folder / f"{name}.py" for name in names):
                if module.exists() and module not in found:
                    found.add(module)
                    left.append(module)
    return found


def tool_names(tree):
    """The tools for users: each tools/NAME with a manual man/omf-NAME.1 is installed as omf-NAME."""
    names = [path.stem.removeprefix("omf-") for path in sorted((tree / "man").glob("omf-*.1"))]
    return [name for name in names if (tree / "tools" / name).exists()]


def as_installed(text, names, ending=""):
    """A text in which tools have the names under which they are installed."""
    return re.sub(rf"\btools/({'|'.join(names)})\b", rf"omf-\1{ending}", text)


def tools(tree, shared, ending=""):
    """The tools, the modules that they import, and what starts them, whose names end so."""
    folder, names = tree / "tools", tool_names(tree)
    paths = [folder / tool for tool in names]
    for path in sorted({*paths, *(module for path in paths for module in imported(path, folder))}):
        text = as_installed(path.read_text(encoding="utf-8"), names, ending)
        yield Item(f"{shared}/tools/{path.name}", text=text, runs=path in paths)
    for tool in names:
        text = STARTER.format(tool=tool, program=PROGRAM + ending, shared=shared)
        yield Item(f"bin/omf-{tool}{ending}", text=text, runs=True)


def completions(tree):
    """That of bash, which is looked for under the name of each command."""
    yield Item(f"{COMPLETED}/{PROGRAM}", tree / "completions" / "omf.bash")
    for name in (*PROGRAMS[1:], *(f"omf-{tool}" for tool in tool_names(tree))):
        yield Item(f"{COMPLETED}/{name}", link=PROGRAM)


def in_order(items):
    return sorted(items, key=lambda it: it.path)


def proved(with_library, tree=TOP, build=BUILD):
    """All that is installed of the proved programs, and of the library for C."""
    found = [Item(f"bin/{name}", build / name, runs=True) for name in PROGRAMS]
    found += [*tools(tree, SHARED), *completions(tree), *copied(COPIED, tree)]
    if with_library:
        found += copied(COPIED_FOR_C, tree)
        found += [Item("lib/libomf.a", build / "libomf.a"), Item("include/omf.h", build / "omf.h")]
        found.append(Item("lib/pkgconfig/omf.pc", text=PKG_CONFIG.format(version=version(tree))))
    return in_order(found)


# What the names of unproved programs end with, so that nobody takes them for proved.
UNPROVED = "-unproved"


def unproved(kept, tree=TOP):
    """What is installed of the programs that are kept in a folder as built without proof: what starts each, the programs, and the tools."""
    folder = f"lib/omf{UNPROVED}"
    found = [Item(f"{folder}/{path.name}", path, runs=True) for name in PROGRAMS for path in (kept / name, kept / f"{name}.program")]
    found += [Item(f"bin/{name}{UNPROVED}", link=f"../{folder}/{name}") for name in PROGRAMS]
    found += [*tools(tree, SHARED + UNPROVED, UNPROVED)]
    found.append(Item(f"{SHARED}{UNPROVED}/docs/ANSWERS.md", tree / "docs" / "ANSWERS.md"))
    return in_order(found)
