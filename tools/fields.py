"""The fields of a line of assembly source, as the assembler divides it (docs/ASSEMBLER.md, "Source lines")."""
import re

BLANKS = re.compile(r"[ \t]*")
WORD = re.compile(r"[^ \t]*")


def is_comment(line):
    """Whether a line has no fields."""
    return not line.strip(" \t") or line[0] in "*;!"


def operand_end(line, start):
    """Where the field that begins here ends: at the first blank outside quotes."""
    quote = None
    for at in range(start, len(line)):
        if quote:
            quote = None if line[at] == quote else quote
        elif line[at] in "'\"":
            quote = line[at]
        elif line[at] in " \t":
            return at
    return len(line)


def operation_span(line):
    """Where the label of a line with fields ends, the span of its operation, and where what follows that begins."""
    label_end = WORD.match(line).end()
    start = BLANKS.match(line, label_end).end()
    end = WORD.match(line, start).end()
    return label_end, (start, end), BLANKS.match(line, end).end()
