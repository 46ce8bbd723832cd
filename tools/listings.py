"""What `dump` lists of a segment, also of one that breaks off, and a place in it as readers of a source know it."""
import os, pathlib, re, subprocess, tempfile

from segments import BLOCK, HEADER, Segment, number, segments

DONE = 0
LABELS = ("LOCAL", "GLOBAL")
DATA, DICTIONARY, PRIVATE = 0x01, 0x08, 0x4000


def shown(text):
    """Bytes of a line as they can be printed."""
    return re.sub(r"[^\t\x20-\x7e\xa0-\U0010ffff]", "?", text.decode("utf-8", "replace"))


class Listing:
    """What `dump` lists of one segment: its number, its name, and its lines, each with its displacement in the file."""

    def __init__(self, number, name, start, line):
        self.number, self.name, self.lines, self.is_whole = number, name, [(start, line)], True

    def line(self, place):
        """The line of what begins at a displacement, if something does, and the file continues after it."""
        return next((line for at, line in self.lines if at == place), None) if self.is_whole else None

    def records(self):
        """The records in order: the displacement of each, its kind, its fields, and its offset in the segment."""
        offset = 0
        for at, line in self.lines[1:]:
            kind, *fields = line.split(" ")[1:]
            yield at, kind, fields, offset
            offset += size_of(kind, fields, offset)

    def offset_of(self, place):
        """The offset of the record at a displacement."""
        return next(offset for at, _, _, offset in self.records() if at == place)

    def offsets(self):
        """The labels of the segment, its own name among them, with their offsets."""
        labels = {fields[0]: offset for _, kind, fields, offset in self.records() if kind in LABELS}
        return {self.name: 0, **labels}

    def byte_before(self, place):
        """The last constant byte of the record before the one at a displacement, as far as the listing shows it; None where there is none."""
        found = None
        for at, kind, fields, _ in self.records():
            if at == place:
                return found
            found = int(fields[1][-2:], 16) if kind == "CONST" and not fields[1].endswith(".") else None
        return None

    def where(self, place):
        """The segment, and the last label before a displacement in it, with the bytes of memory between the two."""
        label, start, since = self.name, 0, 0
        for at, kind, fields, offset in self.records():
            if at > place:
                break
            if kind in LABELS:
                label, start = fields[0], offset
            since = offset - start
        segment = f"segment {self.number} {self.name}".rstrip()
        if label:
            return segment if label == self.name and not since else f"{segment}, {label}" + (f"+${since:X}" if since else "")
        return f"{segment}, offset ${since:X}" if since else segment


def size_of(kind, fields, offset):
    """How many bytes a record of an object has in memory, at an offset of its segment."""
    if kind in ("CONST", "LCONST", "DS", "ORG"):
        return int(fields[0], 16)
    if kind == "ALIGN":
        return -offset % (int(fields[0], 16) or 1)
    return int(fields[0], 16) if kind.endswith("EXPR") else 0


def front(data, segment, place):
    """A file that ends at a place in the body of a segment, so that it can be listed; None where no body has the place."""
    start = 0
    for _ in range(segment - 1):
        start += Segment(data, start).byte_count()
    if len(data) < start + HEADER:
        return None
    found = Segment(data, start)
    body = start + found.field("DISPDATA")
    end = max(body, place)
    made = bytearray(data[:end] + b"\0")
    size = end + 1 - start
    if found.field("VERSION") == 1:
        size = -(-size // BLOCK)
        made += bytes(start + size * BLOCK - len(made))
    made[start : start + 4] = size.to_bytes(4, "little")
    return made if body <= end < len(data) else None


def listed(omf, path, segment):
    """The listing of a segment of a file, or None where the program lists no such file."""
    ran = subprocess.run([omf, "dump", path], capture_output=True)
    found = None
    for line in ran.stdout.decode("ascii", "replace").splitlines() if ran.returncode == DONE else []:
        head = re.fullmatch(r'segment (\d+) at (\w{8}) .* segname "(.*)"', line)
        if head and found:
            break
        if head and int(head[1]) == segment:
            found = Listing(segment, head[3], int(head[2], 16), line)
        elif found:
            found.lines.append((int(line[:8], 16), line))
    return found


def listing_of(omf, path, data, segment, place):
    """The listing of a segment; of a file that can't be listed, up to the place, or else its name alone."""
    found = listed(omf, path, segment)
    with tempfile.TemporaryDirectory(prefix="omf-explain-") as room:
        for end in (place, 0):
            made = None if found else front(data, segment, end)
            if made:
                cut = os.path.join(room, "front")
                pathlib.Path(cut).write_bytes(made)
                found = listed(omf, cut, segment)
                if found:
                    found.is_whole = False
    return found


class Definition:
    """What a file defines: the name, the kind of what defines it, the segment, and whether other files see it."""

    def __init__(self, name, kind, segment, is_private):
        self.name, self.kind, self.segment, self.is_private = name, kind, segment.name().decode("latin-1"), is_private
        self.number = segment.place
        self.is_data, self.load_name = segment.kind() & 0x1F == DATA, segment.load_name().rstrip()


def definitions(omf, path):
    """What the segments of a file define, in order."""
    found = list(segments(pathlib.Path(path).read_bytes()))
    ran = subprocess.run([omf, "dump", path], capture_output=True)
    segment = None
    for line in ran.stdout.decode("latin-1").splitlines() if ran.returncode == DONE else []:
        if line.startswith("segment "):
            segment = found[int(line.split(" ")[1]) - 1]
            if segment.kind() & 0x1F != DICTIONARY and segment.name():
                yield Definition(segment.name().decode("latin-1"), "SEGNAME", segment, segment.kind() & PRIVATE != 0)
            continue
        kind, *fields = line.split(" ")[1:]
        if kind in ("LOCAL", "GLOBAL", "EQU", "GEQU"):
            yield Definition(fields[0], kind, segment, fields[3] != "00" if kind in ("GLOBAL", "GEQU") else False)
        elif kind == "ENTRY":
            yield Definition(fields[-1], kind, segment, False)


OPERATORS = dict(enumerate("+ - * / .MOD. - | .AND. .OR. .EOR. .NOT. <= >= <> < > = .BAND. .BOR. .BEOR. .BNOT.".split(), 1))
UNARY = (0x06, 0x0B, 0x15)
ATTRIBUTES = {0x82: "", 0x83: "", 0x84: "L:", 0x85: "T:", 0x86: "C:"}


def names_of(data, label_length):
    """The names in an expression record's bytes, in order."""
    found, at = [], 0
    while at < len(data) and data[at]:
        code, at = data[at], at + 1
        if code in ATTRIBUTES:
            size = label_length or data[at]
            at += not label_length
            found.append(data[at : at + size].decode("latin-1").rstrip(" "))
            at += size
        elif code in (0x81, 0x87):
            at += 4
    return found


def formula(data, label_length):
    """An expression record's bytes as a formula; empty where they aren't one."""
    values, at = [], 0
    while at < len(data) and data[at]:
        code, at = data[at], at + 1
        if code in ATTRIBUTES:
            size = label_length or data[at]
            at += not label_length
            values.append(ATTRIBUTES[code] + shown(data[at : at + size]).rstrip(" "))
            at += size
        elif code in (0x81, 0x87):
            values.append(f"${number(data, at, 4):X}" if code == 0x81 else f"(segment+${number(data, at, 4):X})")
            at += 4
        elif code == 0x80:
            values.append("*")
        elif code in UNARY:
            operand = values.pop()
            values.append(f"-{operand}" if OPERATORS[code] == "-" and operand.startswith("$") else f"({OPERATORS[code]}{operand})")
        else:
            right, left = values.pop(), values.pop()
            values.append(f"({left}{OPERATORS[code]}{right})")
    return values[0].removeprefix("(").removesuffix(")") if values and values[0].startswith("(") else "".join(values)


def record_at(data, found, place):
    """What is at a displacement: the record's line with its formula, or the first bytes."""
    line = found and found.line(place)
    if not line:
        return f"{place:08X} " + (data[place : place + 8].hex(" ").upper() or "the file ends")
    kind, *fields = line.split(" ")[1:]
    if not (kind.endswith("EXPR") or kind in ("EQU", "GEQU")):
        return line
    return f"{line}   {formula(bytes.fromhex(fields[-1]), Segment(data, found.lines[0][0]).field('LABLEN'))}"
