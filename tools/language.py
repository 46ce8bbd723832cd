"""The words of the assembler's language, read from the definitions: mnemonics, directives, and the statements of macros."""
import collections, functools, re

from common import CRATES

OPERATIONS = CRATES / "orca_meaning" / "specs" / "Operation.antt"
MATRIX = CRATES / "orca_meaning" / "specs" / "Matrix.antt"
DIRECTIVES = CRATES / "asm_meaning" / "specs" / "Operations.antt"
STATEMENTS = CRATES / "macro_meaning" / "specs" / "Statements.antt"
SPELLED = re.compile(r'codes "([^"]+)"')
# The modes as the data sheet writes them, in the order in which a reader looks for them.
MODES = "i A # sig d d,x d,y a a,x a,y al al,x (d) (d),y (d,x) [d] [d],y (a) (a,x) [a] d,s (d,s),y r rl xyc".split()


def spelled(path, *names):
    """The texts that definitions of a file spell, in order."""
    text = path.read_text()
    found = []
    for name in names:
        body = re.search(rf"(?ms)^{name} =\n(.*?)(?=\n\n|\Z)", text) or re.search(rf"(?m)^{name} = (.*)$", text)
        found += SPELLED.findall(body[1])
    return found


@functools.cache
def mnemonics():
    return spelled(OPERATIONS, "mnemonics")


@functools.cache
def directives():
    """The directives that do something; ANOP is one."""
    return spelled(DIRECTIVES, "directives")


@functools.cache
def ignored():
    """The directives that are accepted without effect."""
    return spelled(DIRECTIVES, "ignored_directives")


@functools.cache
def statements():
    """The statements of macros and conditional assembly; ANOP, which is a directive too, isn't among them."""
    return [word for word in spelled(STATEMENTS, "statements", "other_statements") if word not in directives()]


def other_names():
    """The mnemonics that are other names of one, with that one."""
    rows = re.findall(r'\(codes "(\w+)", (\w+)\)', OPERATIONS.read_text())
    return {spelling: variant.upper() for spelling, variant in rows if spelling != variant.upper()}


def shown_mode(name):
    """A mode as the data sheet writes it: the definitions leave commas away, and write ⟨ ⟩ for round brackets."""
    for mode in MODES:
        if mode.replace(",", "").replace("(", "⟨").replace(")", "⟩") == name:
            return mode
    raise ValueError(f"{MATRIX}: {name} is no mode that is known")


@functools.cache
def modes():
    """The modes of each mnemonic, in the order of MODES."""
    found = collections.defaultdict(set)
    for mnemonic, mode in re.findall(r"\((\w+), (\S+?)\) ∷", MATRIX.read_text()):
        found[mnemonic.upper()].add(shown_mode(mode))
    for spelling, mnemonic in other_names().items():
        found[spelling] = found[mnemonic]
    return {mnemonic: sorted(found[mnemonic], key=MODES.index) for mnemonic in mnemonics()}


@functools.cache
def without_operand():
    """The operations that take no operand: what follows them is a comment."""
    return [it for it, its in modes().items() if its == ["i"]] + spelled(OPERATIONS, "without_operand")


@functools.cache
def with_optional_operand():
    """The mnemonics that may lack their operand."""
    return [it for it, its in modes().items() if "A" in its or "sig" in its]
