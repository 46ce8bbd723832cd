"""What the crates' sources make public: each call with its doc comment and its clauses.

A call is a function, a method of a public type or a method of a public trait. Public is what a crate's lib.rt, or a program's
main.rt, declares or exports from its own modules. The files are read as `rt fmt` lays them out: an item begins at the start of a
line, and what is inside it is indented by four spaces.
"""
import re
from dataclasses import dataclass, field

from common import CRATES, TOP, declared

CLAUSE_START = re.compile(r"(requires|ensures)\*?(?: (\w+))? \{")
GHOST_START = re.compile(r"ghost (\w+)\s*[=:]")
FUNCTION = re.compile(r"(pub )?(?:extern \"C\" )?fn (\w+)")


@dataclass
class Item:
    """An item of a file: the comment and the attributes before it, its own lines, and the number of its first line, from 1."""

    comment: list
    lines: list
    number: int

    @property
    def head(self):
        return self.lines[0]

    @property
    def text(self):
        return "\n".join(self.lines)

    def covers(self, at):
        """Whether the line at a place from 0 is one of the item's."""
        return 0 <= at + 1 - self.number < len(self.lines)

    def inside(self):
        """The items in the braces of a trait or of an `impl`."""
        lines = [line[4:] if line.startswith("    ") else line for line in self.lines]
        first = next((k for k, line in enumerate(self.lines) if line.endswith("{")), len(lines))
        return items(lines[first + 1 : -1], self.number + first + 1)


@dataclass
class Clause:
    """A `requires`, an `ensures` or a `ghost` member: its name, if it has one, the comment before it, and its text."""

    kind: str
    name: str
    comment: str
    text: str


@dataclass
class Call:
    """A public call, or the `ghost` member of a public trait or of an `impl`.

    `trait` is the one that an `impl` is of, and `beside` has the names of the `ghost` members of that `impl`.
    """

    crate: str
    name: str
    doc: str
    clauses: list
    uses: list
    trait: str = ""
    beside: list = field(default_factory=list)
    is_ghost: bool = False

    @property
    def path(self):
        return f"{self.crate}::{self.name}"


@dataclass
class Exports:
    """What the root file of a crate makes public: names by its own modules, and names of other crates by crate."""

    own: dict = field(default_factory=dict)
    others: dict = field(default_factory=dict)

    def all_own(self):
        return set().union(*self.own.values())


def items(lines, number=1):
    """The items among these lines, of which the first has this number."""
    comment, found = [], []
    for at, line in enumerate(lines, number):
        if found:
            found.append(line)
        elif not line or line.startswith("//"):
            # Only a comment that ends directly before the item is about it.
            comment = comment + [line] if line else []
        elif line[0] not in " #)":
            found, start = [line], at
        if found and ends_item(found):
            yield Item(comment, found, start)
            comment, found = [], []


def ends_item(lines):
    """Whether the last of an item's lines ends it."""
    line = without_comment(lines[-1])
    if line.startswith("}") or not line.startswith(" ") and line.endswith((";", "{}")):
        return True
    # A declaration without a body may end with an indented line.
    return line.endswith(";") and not any(opens_body(other) for other in lines) and is_balanced("\n".join(lines))


def is_balanced(text):
    return text.count("{") == text.count("}")


def opens_body(line):
    return not line.startswith(" ") and line.endswith("{")


def without_comment(line):
    """The line without the comment at its end."""
    return re.sub(r"(^|\s)//.*", "", line).rstrip()


def doc_of(item):
    """The text of the doc comment before an item, its paragraphs joined."""
    lines = [line[3:].strip() for line in item.comment if line.startswith("///")]
    return " ".join(line for line in lines if line)


def said(lines):
    """The text of some comment lines."""
    return " ".join(line.strip().lstrip("/").strip() for line in lines)


def declaration(item):
    """The lines of a function without its body."""
    for line in item.lines:
        if line == "{":
            return
        yield line
        if opens_body(line):
            return


def clauses_of(item):
    """The `requires` and `ensures` of a function, in order."""
    comment, lines = [], []
    for line in declaration(item):
        stripped = line.strip()
        if not lines:
            if not stripped.startswith("//") and not CLAUSE_START.match(stripped):
                comment = []
                continue
            if stripped.startswith("//"):
                comment.append(line)
                continue
        lines.append(without_comment(line))
        text = "\n".join(lines).strip()
        if is_balanced(text):
            kind, name = CLAUSE_START.match(text).groups()
            yield Clause(kind, name or "", said(comment), text[text.index("{") + 1 : text.rindex("}")])
            comment, lines = [], []


def ghost_name(item):
    """The name of a `ghost` member; nothing of another item, and of a type's invariant, which nobody outside sees."""
    ghost = GHOST_START.match(item.head)
    return ghost.group(1) if ghost and ghost.group(1) != "invariant" else ""


def ghost_clause(item):
    """What a `ghost` member says."""
    text = "\n".join(without_comment(line) for line in item.lines)
    return Clause("ghost", ghost_name(item), "", text[text.index("{") + 1 : text.rindex("}")])


def after_generics(text):
    """The text after the `<..>` at its start, if there is one."""
    depth = 0
    for at, character in enumerate(text):
        depth += (character == "<") - (character == ">")
        if not depth:
            return text[at + (character == ">") :]
    return text


def without_generics(text):
    """A type's name without its generics."""
    return text.partition("<")[0]


def crates():
    return list(declared())


def root(crate):
    """The root file of a crate: of a library, or of a program."""
    source = CRATES / crate / "src"
    return source / ("lib.rt" if (source / "lib.rt").exists() else "main.rt")


def exports(crate):
    """What a crate makes public."""
    found, known = Exports(), crates()
    path = root(crate)
    for item in items(path.read_text().splitlines()):
        if declares := re.match(r"pub (?:fn|trait|struct|enum) (\w+)", item.head):
            found.own.setdefault(path.stem, []).append(declares.group(1))
        elif item.head.startswith("pub use "):
            module, _, names = " ".join(item.lines).removeprefix("pub use ").rstrip(";").partition("::")
            names = [name.strip() for name in names.strip("{}").split(",")]
            home = found.others if module in known else found.own
            home.setdefault(module, []).extend(name for name in names if name)
    return found


def calls(crate):
    """The public calls of a crate, and the `ghost` members of its traits and of the `impl`s of its types, by file and place."""
    public = exports(crate)
    types = public.all_own()
    for path in sorted(root(crate).parent.glob("*.rt")):
        yield from calls_of_file(crate, path, public.own.get(path.stem, []), types)


def calls_of_file(crate, path, names, types):
    """The public calls of a file that exports these names, in a crate with these public types."""
    found = list(items(path.read_text().splitlines()))
    uses = [item.text for item in found if item.head.startswith("ghost use ")]
    for item in found:
        head = " ".join(item.lines[: item.lines.index("{")] if "{" in item.lines else item.lines[:1])
        if (function := FUNCTION.match(head)) and function.group(1) and function.group(2) in names:
            inner = [line.strip() for line in item.lines if line.startswith("    ghost use ")]
            yield Call(crate, function.group(2), doc_of(item), list(clauses_of(item)), uses + inner)
        elif (trait := re.match(r"pub trait (\w+)", head)) and trait.group(1) in names:
            yield from members(crate, item, trait.group(1), "", uses, is_open=True)
        elif head.startswith("impl"):
            trait, of = trait_and_type(head)
            if of in types:
                yield from members(crate, item, of, trait, uses, is_open=bool(trait))


def trait_and_type(head):
    """The trait of an `impl`, if it is of one, with its own generics; and the type without them."""
    generics = len(head) - len(after_generics(head.removeprefix("impl")))
    trait, _, of = head[generics:].strip(" {").rpartition(" for ")
    return trait, without_generics(of)


def members(crate, item, owner, trait, uses, is_open):
    """The public members of a trait or of an `impl`; those of a trait are public without saying so."""
    inner = list(item.inside())
    uses = uses + [it.text for it in inner if it.head.startswith("ghost use ")]
    ghosts = [ghost_name(it) for it in inner if ghost_name(it)]
    for it in inner:
        function = FUNCTION.match(it.head)
        if function and (function.group(1) or is_open):
            yield Call(crate, f"{owner}::{function.group(2)}", doc_of(it), list(clauses_of(it)), uses, trait, ghosts)
        elif name := ghost_name(it):
            yield Call(crate, f"{owner}::{name}", doc_of(it), [ghost_clause(it)], uses, trait, is_ghost=True)


def enclosing(lines, at):
    """The name of the function, with its type, or of another item, that has the line at a place from 0."""
    for item in items(lines):
        if item.covers(at):
            if not item.head.startswith("impl"):
                return function_name(item) or declared_name(item)
            owner = trait_and_type(item.head)[1]
            names = [function_name(it) for it in item.inside() if it.covers(at)]
            return "::".join([owner, *filter(None, names)])
    return ""


def declared_name(item):
    """The name of a type, a constant or a table."""
    found = re.match(r"(?:pub(?:\(crate\))? )?(?:struct|enum|trait|const|static) (\w+)", item.head)
    return found.group(1) if found else item.head


def function_name(item):
    """The name of the function that an item is, or nothing."""
    function = FUNCTION.match(item.head.removeprefix("pub(crate) "))
    return function.group(2) if function else ""
