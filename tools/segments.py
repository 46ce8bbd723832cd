"""The segments of files: the fields of a header (GS/OS Reference, appendix F), and the first check of a header that fails."""
import re

# The least bytes of a header, and the unit of BYTECNT in version 1.
HEADER, BLOCK = 0x2C, 512
# The fields before the names, each with its displacement and its bytes. In version 1 KIND is a byte, at another displacement.
FIELDS = {
    "BYTECNT": (0x00, 4),
    "RESSPC": (0x04, 4),
    "LENGTH": (0x08, 4),
    "LABLEN": (0x0D, 1),
    "NUMLEN": (0x0E, 1),
    "VERSION": (0x0F, 1),
    "BANKSIZE": (0x10, 4),
    "KIND": (0x14, 2),
    "ORG": (0x18, 4),
    "ALIGN": (0x1C, 4),
    "NUMSEX": (0x20, 1),
    "SEGNUM": (0x22, 2),
    "ENTRY": (0x24, 4),
    "DISPNAME": (0x28, 2),
    "DISPDATA": (0x2A, 2),
}
KIND_1 = (0x0C, 1)
LOADNAME_BYTES = 10
TYPES = {
    0x00: "code",
    0x01: "data",
    0x02: "jump table",
    0x04: "pathname",
    0x08: "library dictionary",
    0x10: "initialization",
    0x12: "direct page and stack",
}
ATTRIBUTES = {
    0x0100: "bank-relative",
    0x0200: "skip",
    0x0400: "reload",
    0x0800: "absolute bank",
    0x1000: "no special memory",
    0x2000: "position-independent",
    0x4000: "private",
    0x8000: "dynamic",
}


def number(data, at, size):
    return int.from_bytes(data[at : at + size], "little")


def shown_name(name):
    """A name as `dump` shows it."""
    return '"' + re.sub(r'[^ -~]|"', "?", name.decode("latin-1")) + '"'


class Fault:
    """What is wrong with a header: the cause, the field or None, the displacement in the file, and the check that fails."""

    def __init__(self, cause, field, place, check):
        self.cause, self.field, self.place, self.check = cause, field, place, check


class Segment:
    """A segment of a file: where it begins, its place among the segments from 1, and its header."""

    def __init__(self, data, start, place=0):
        self.data, self.start, self.place = data, start, place

    def span(self, name):
        """The displacement of a field in the segment, and how many bytes it has."""
        return KIND_1 if name == "KIND" and self.field("VERSION") == 1 else FIELDS[name]

    def field(self, name):
        at, size = self.span(name)
        return number(self.data, self.start + at, size)

    def byte_count(self):
        return self.field("BYTECNT") * (BLOCK if self.field("VERSION") == 1 else 1)

    def kind(self):
        """KIND as it is in version 2."""
        kind = self.field("KIND")
        return kind & 0x1F | (kind & 0xE0) << 8 if self.field("VERSION") == 1 else kind

    def load_name_place(self):
        return self.start + self.field("DISPNAME")

    def load_name(self):
        at = self.load_name_place()
        return self.data[at : at + LOADNAME_BYTES]

    def name_place(self):
        return self.load_name_place() + LOADNAME_BYTES

    def name(self):
        at, size = self.name_place(), self.field("LABLEN")
        if size:
            return self.data[at : at + size].rstrip(b" ")
        return self.data[at + 1 : at + 1 + number(self.data, at, 1)]

    def names_end(self):
        at, size = self.name_place(), self.field("LABLEN")
        return at + (size or 1 + number(self.data, at, 1))

    def body(self):
        """The bytes from DISPDATA to the segment's end."""
        return self.data[self.start + self.field("DISPDATA") : self.start + self.byte_count()]

    def fault(self):
        """The first check of the header that fails, in the order of docs/FORMAT.md; None where none does."""
        end, room = len(self.data), len(self.data) - self.start
        if room < HEADER:
            return Fault("Truncated", None, end, "the file ends before the header's 44 bytes do")
        checks = (
            ("Unsupported", "NUMLEN", self.field("NUMLEN") != 4, "it has to be 4"),
            ("Unsupported", "VERSION", self.field("VERSION") not in (1, 2), "it has to be 1 or 2"),
            ("BadHeader", "BANKSIZE", self.field("BANKSIZE") > 0x10000, "it may be at most $10000"),
            ("Unsupported", "KIND", self.kind() & 0x1F not in TYPES, "its type is none of the format"),
            ("Unsupported", "NUMSEX", self.field("NUMSEX") != 0, "it has to be 0"),
            ("BadHeader", "DISPNAME", self.field("DISPNAME") < HEADER, "it has to be at least $2C"),
            ("Truncated", "BYTECNT", room < self.byte_count(), "the file ends before the segment's bytes do"),
            ("BadHeader", "DISPDATA", self.start + self.field("DISPDATA") < self.names_end(), "it is before the end of the names"),
            ("BadHeader", "DISPDATA", self.byte_count() < self.field("DISPDATA"), "it is after the end of the segment"),
            ("BadHeader", "RESSPC", self.field("LENGTH") < self.field("RESSPC"), "it is above LENGTH"),
        )
        for cause, name, fails, check in checks:
            if fails:
                return Fault(cause, name, end if cause == "Truncated" else self.start + self.span(name)[0], check)
        return None


def segments(data):
    """The segments of a file in order; the last is the first whose header has a fault."""
    start = count = 0
    while start < len(data):
        count += 1
        segment = Segment(data, start, count)
        yield segment
        if segment.fault():
            return
        start += segment.byte_count()
