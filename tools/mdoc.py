"""Texts of the documents as lines of a manual: paragraphs, code within them, and lists made of the rows of tables."""
import re, textwrap

WIDTH = 78
# The manual that has what a document has; a document without one is named by its path.
MANUALS = {
    "README.md": "omf 1",
    "docs/ANSWERS.md": "omf-causes 7",
    "docs/ASSEMBLER.md": "omf-asm 5",
    "docs/LOADER.md": "omf-script 5",
    "docs/C.md": "omf 3",
    "tools/explain": "omf-explain 1",
    "tools/depends": "omf-depends 1",
    "tools/compare": "omf-compare 1",
    "tools/headers": "omf-headers 1",
    "tools/picture": "omf-picture 1",
    "omf_map": "omf_map 1",
    "omf_expand": "omf_expand 1",
}
# How bytes are written that would be shown as another one, or read as a command.
SHOWN = {"\\": "\\e", "-": "\\-", "'": "\\(aq", "`": "\\(ga", "^": "\\(ha", "~": "\\(ti", '"': "\\(dq"}
# A space at which no line ends.
FIRM = "\N{NO-BREAK SPACE}"
# What a macro would take as a mark of its own.
MARK = re.compile(r"[.,:;()\[\]?!|]")


def literal(text):
    """Code as it has to be shown, byte for byte."""
    return "".join(SHOWN.get(byte, byte) for byte in text)


def code(text):
    """Code within a sentence, which isn't divided."""
    name = MANUALS.get(text)
    if name:
        return "\\fB{}\\fR({})".format(*literal(name).split())
    return "\\(oq" + literal(text).replace(" ", FIRM) + "\\(cq"


def prose(text):
    """A text with code between backticks as one long line."""
    parts = text.split("`")
    parts[0::2] = [part.replace("\\", "\\e") for part in parts[0::2]]
    parts[1::2] = map(code, parts[1::2])
    return "".join(parts)


def wrapped(line):
    """A long line as lines, none of which is read as a command."""
    lines = textwrap.wrap(line, WIDTH, break_long_words=False, break_on_hyphens=False)
    return [("\\&" + it if it[0] in ".'" else it).replace(FIRM, "\\ ") for it in lines]


def paragraph(text):
    """The lines of a text, each sentence on lines of its own."""
    return [line for it in re.split(r"(?<=[.?]) +(?=[A-Z\\\\])", prose(text)) for line in wrapped(it)]


def ended(text):
    """A cell of a table with a full stop."""
    return text + "." * (text != "" and not text.endswith((".", ":")))


def argument(text):
    """A text as one argument of a macro."""
    shown = literal(text)
    if MARK.fullmatch(text) or re.fullmatch(r"[A-Z%][A-Za-z]{1,2}", text):
        shown = "\\&" + shown
    return f'"{shown}"' if " " in shown else shown


def symbolic(text):
    """Code in bold."""
    return ["Sy", argument(text)]


def form(text):
    """A command's form: its words, and the names of what is to be put in their place."""
    found = []
    for word in text.split():
        name = word.removesuffix("..")
        if re.fullmatch(r"[A-Z]+", name):
            found += ["Ar", argument(name)] + ["..."] * (name != word)
        else:
            found += ["..."] if word == ".." else ["Cm", argument(word)]
    return found


def tag(text, shown=symbolic):
    """The tag of an item: codes, and between them words and commas."""
    words = []
    for at, part in enumerate(text.split("`")):
        if at % 2:
            words += shown(part)
        else:
            for word in re.findall(r",|[^\s,]+", part):
                words += [","] if word == "," and words else ["No", argument(word)]
    return ".It " + " ".join(words)


def items(rows, compact=False):
    """A list of pairs: the line of each tag, and the paragraphs of its text."""
    yield ".Bl -tag -width Ds" + " -compact" * compact
    for line, texts in rows:
        yield line
        for at, text in enumerate(filter(None, texts)):
            yield from [".Pp"] * (at > 0) + paragraph(text)
    yield ".El"


def columns(rows, widths):
    """A table of short cells, each column as wide as one of the texts."""
    yield ".Bl -column " + " ".join(f'"{literal(it)}"' for it in widths) + " -compact"
    for row in rows:
        yield ".It " + " Ta ".join(argument(cell) if cell else "\\&" for cell in row)
    yield ".El"


def display(text):
    """Lines as they are."""
    yield ".Bd -literal -offset indent"
    for line in text.rstrip("\n").split("\n"):
        shown = literal(line)
        yield "\\&" + shown if shown.startswith((".", "'")) or not shown else shown
    yield ".Ed"
