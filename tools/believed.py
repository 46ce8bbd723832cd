"""The definitions in the crates' specs folders, and which of them a contract asks a reader to believe.

A contract reaches the definitions that it names, and those that these name. A definition is known by its crate, its file's stem
(`laws.NAME` for one in specs/laws) and its name.
"""
import collections, re

import contracts
from common import CRATES

NAME = re.compile(r"[^\s(){}\[\],;:.λ→∷`\"]+")
USE = re.compile(r"(?:ghost )?(?:pub )?use Rattle\.(\w+)\.specs\.((?:laws\.)?\w+)(?:\.\{([^}]*)\}| as (\w+))?;?\s*$")
DECLARATION = re.compile(r"(?:abbrev )?(?:unfoldable )?(?:pub )?(record |data )?([^\s(:]+)")
# What `run_tool` says of each command, by the form of its arguments in these two definitions.
FORMS = {
    "asm": "Asm",
    "lib": "Lib",
    "link": "Link",
    "rtl": "Rtl",
    "linkrt": "LinkRt",
    "dump": "Dump",
    "compact": "Compact",
    "run": "Run",
    "list": "Listing",
    "stress": "Stress",
}
BY_FORM = ("omf_cli", "Tool", ("HasRun", "CanSucceed"))


class Module:
    """A file of definitions: the text of each, and the names in it that mean one."""

    def __init__(self, crate, stem, path):
        self.crate, self.stem = crate, stem
        self.texts = collections.OrderedDict()
        self.comment, self.comments = "", {}
        self.names = {}
        self.uses = Uses()
        self.read(path.read_text())

    def read(self, text):
        name, is_data, indent = None, False, ""
        self.read_comments(text)
        for line in text.splitlines():
            line = re.sub(r"(^|\s)--.*", "", line).rstrip()
            if not line:
                continue
            if self.uses.take(line.strip()):
                continue
            if line[0] != " ":
                # The declarations of a module with parameters are indented by two spaces more.
                indent = "  " if line.startswith("module _") else ""
            elif line.startswith(indent):
                line = line[len(indent) :]
            if line[0] != " ":
                found = DECLARATION.match(line)
                if re.match(r"(pub )?(mod|use|module|mutual|infix\w*)\b", line) or not found:
                    name = None
                    continue
                if found.group(2) not in self.texts:
                    self.texts[found.group(2)] = ""
                    self.names[plain(found.group(2))] = found.group(2)
                name, is_data = found.group(2), found.group(1) == "data "
            elif name and is_data and re.match(r"  \w+ :", line):
                self.names[line.split()[0]] = name
            if name:
                self.texts[name] += line + "\n"

    def read_comments(self, text):
        """The comment at the head of the file, and for each definition the one before it; one after another may share theirs."""
        blocks = re.findall(r"^(?: {2})?--[^\n]*(?:\n(?: {2})?--[^\n]*)*|^[^\n]+", text, re.M)
        comment, is_first = None, True
        for block in blocks:
            if re.match(r" *--", block):
                said = " ".join(line.strip().lstrip("-").strip() for line in block.splitlines())
                if is_first:
                    self.comment = said
                comment = None if re.match(r" *-- -", block) else said
            elif found := re.match(r"(?: {2})?(?!(?:pub )?(?:mod|use|module|mutual|infix\w*)\b)" + DECLARATION.pattern, block):
                if block[0] != " " or block.startswith("  ") and not block.startswith("   "):
                    self.comments.setdefault(found.group(2), comment)
            is_first = False


class Uses:
    """Which names mean definitions of which module."""

    def __init__(self, others=None):
        self.names = dict(others.names) if others else {}
        self.modules = dict(others.modules) if others else {}

    def take(self, line):
        found = USE.match(line)
        if not found:
            return line.startswith(("use ", "pub use ", "ghost use "))
        crate, file, names, alias = found.groups()
        if names is not None:
            for name in names.split(","):
                name, _, other = name.strip().partition(" as ")
                if name:
                    self.names[plain(other or name)] = (crate, file, plain(name))
        else:
            self.modules[alias or file.split(".")[-1]] = (crate, file)
        return True

    def cited(self, text):
        """The definitions that a text names, each as its crate, file and name."""
        found = set()
        for alias, name in re.findall(r"(\w+)\.([\w'-]+)", text):
            if alias in self.modules:
                found.add(self.modules[alias] + (name,))
        for name in set(NAME.findall(text)) | set(re.findall(r"[\w'-]+", text)):
            if name in self.names:
                found.add(self.names[name])
        return found


def plain(name):
    return name.strip("◌")


def modules():
    """All files of definitions, by crate and stem, in the crates' order."""
    found = {}
    for crate in contracts.crates():
        specs = CRATES / crate / "specs"
        for path in sorted(specs.glob("*.antt")):
            found[crate, path.stem] = Module(crate, path.stem, path)
        for path in sorted((specs / "laws").glob("*.antt")):
            found[crate, "laws." + path.stem] = Module(crate, "laws." + path.stem, path)
    return found


def cites_of(call):
    """Each clause of a call: the call's path, and the definitions that the clause names."""
    uses = Uses()
    for text in call.uses:
        uses.take(text)
    for clause in call.clauses:
        yield call.path, uses.cited(clause.text)


def cites_of_crates(crates):
    """Each public clause of these crates."""
    return [cite for crate in crates for call in contracts.calls(crate) for cite in cites_of(call)]


def cites_of_command(all_modules, word):
    """What `run_tool` says of a command: the right sides of the equations of its form."""
    crate, file, names = BY_FORM
    module = all_modules[crate, file]
    uses = uses_inside(module)
    cited = set()
    for name in names:
        for line in module.texts[name].splitlines():
            left, _, right = line.partition(" = ")
            if f"(Some ({FORMS[word]} " in left:
                cited |= uses.cited(right)
    return [(f"omf {word}", cited)]


def uses_inside(module):
    """What names mean in a file of definitions: what it brings in, and its own."""
    uses = Uses(module.uses)
    for local in module.names:
        uses.names.setdefault(local, (module.crate, module.stem, local))
    return uses


def reached(all_modules, cites):
    """Each definition that clauses reach, with what it was first reached from: a call's path, or another definition."""
    found, left = {}, collections.deque()

    def reach(cited, origin):
        for crate, file, name in sorted(cited):
            module = all_modules.get((crate, file))
            if module is None or name not in module.names:
                continue
            key = (crate, file, module.names[name])
            if key not in found:
                found[key] = origin
                left.append(key)

    for origin, cited in cites:
        reach(cited, origin)
    while left:
        crate, file, name = left.popleft()
        module = all_modules[crate, file]
        reach(uses_inside(module).cited(module.texts[name]) - {(crate, file, plain(name))}, (crate, file, name))
    return found


def keys_of(found):
    """The definitions without the marks of their operands."""
    return {(crate, file, plain(name)) for crate, file, name in found}
