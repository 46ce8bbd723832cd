"""The lines of a source or a macro file with their fields, and what they begin, end and define."""
import pathlib, re

from fields import is_comment, operand_end, operation_span
from words import WITHOUT_OPERAND, WITH_OPTIONAL_OPERAND

SEGMENT_STARTS = ("START", "PRIVATE", "DATA", "PRIVDATA")
NAME = re.compile(r"[A-Za-z_~][A-Za-z0-9_~]*")


class Line:
    """A line: its number from 1, its text, and its fields, which are empty where it has none; the operation is in capitals."""

    def __init__(self, number, text):
        self.number, self.text = number, text
        self.label = self.operation = self.operand = self.comment = ""
        if is_comment(text):
            return
        end, span, after = operation_span(text)
        self.label, self.operation = text[:end], text[slice(*span)].upper()
        is_alone = self.operation in WITHOUT_OPERAND or self.operation in WITH_OPTIONAL_OPERAND and text[after : after + 1] == ";"
        stop = after if is_alone else operand_end(text, after)
        self.operand, self.comment = text[after:stop], text[stop:].strip(" \t")


class Macro:
    """A definition: its name, the number of its model line, and its parameters with their `&`."""

    def __init__(self, model):
        self.name, self.number = model.operation, model.number
        self.parameters = [it for it in model.operand.split(",") if it]


class SourceFile:
    """A source or a macro file: its path, its bytes, and its lines, in which a character is a byte."""

    def __init__(self, path):
        self.path, self.data = path, pathlib.Path(path).read_bytes()
        texts = re.split(r"\r\n|\r|\n", self.data.decode("latin-1"))
        self.lines = [Line(number, text) for number, text in enumerate(texts, 1)]

    def line(self, number):
        return self.lines[number - 1]

    def before(self, number):
        """The lines before one, the nearest first."""
        return reversed(self.lines[: number - 1])

    def open_segment(self, number):
        """The line that begins the segment in which a line lies; None outside of segments."""
        for line in self.before(number):
            if line.operation == "END":
                return None
            if line.operation in SEGMENT_STARTS:
                return line
        return None

    def macros(self):
        """The definitions in order."""
        for line, after in zip(self.lines, self.lines[1:]):
            if line.operation == "MACRO" and after.operation:
                yield Macro(after)

    def definition(self, number):
        """The MACRO line of the definition in which a line lies; None outside of definitions."""
        found = next((line for line in self.before(number) if line.operation in ("MACRO", "MEND")), None)
        return found if found and found.operation == "MACRO" else None

    def body(self, number):
        """The lines of the definition in which a line lies; outside of definitions those of the whole file."""
        start = self.definition(number)
        if not start:
            return self.lines
        rest = self.lines[start.number :]
        stop = next((at for at, line in enumerate(rest) if line.operation == "MEND"), len(rest))
        return rest[:stop]
