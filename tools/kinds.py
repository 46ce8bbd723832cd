"""What a file holds: a text, an object file, a library, a load file, a run-time library file, or something else."""
import pathlib, re, subprocess

from segments import segments

EMPTY, TEXT, CUT, OTHER = "an empty file", "a text", "a file of segments that breaks off", "no file of segments"
OBJECT, LIBRARY, LOAD, RUNTIME = "an object file", "a library", "a load file", "a run-time library file"
# What may be an object file and a load file: all its records may be in both.
EITHER = "a file of segments"
DICTIONARY, TABLES = 0x08, (0x02, 0x04)
OF_OBJECTS = ("CONST", "LOCAL", "GLOBAL", "EQU", "GEQU", "USING", "STRONG", "ALIGN", "ORG", "EXPR", "ZEXPR", "BEXPR", "LEXPR", "RELEXPR")
OF_LOAD_FILES = ("RELOC", "INTERSEG", "cRELOC", "cINTERSEG", "SUPER", "ENTRY")
# What files from elsewhere begin with.
STARTS = (
    (b"\x00\x05\x16\x00", "an AppleSingle file"),
    (b"\x0aGL", "a Binary II file"),
    (b"N\xf5F\xe9l\xe5", "a ShrinkIt archive"),
    (b"PK\x03\x04", "a zip archive"),
    (b"\x1f\x8b", "a packed file of gzip"),
)


def is_text(data):
    return not re.search(rb"[\x00-\x08\x0e-\x1f\x7f]", data)


def record_kinds(omf, path):
    """The kinds of the records that `dump` lists, by their names."""
    ran = subprocess.run([omf, "dump", path], capture_output=True)
    return {line.split(b" ")[1].decode() for line in ran.stdout.splitlines() if line[:1] != b"s"}


def envelope(data):
    """The name of what wraps files, where the bytes begin so; None where they don't."""
    return next((name for start, name in STARTS if data.startswith(start)), None)


def kind_of(omf, path):
    """What the file at a path holds."""
    data = pathlib.Path(path).read_bytes()
    if not data:
        return EMPTY
    found = list(segments(data))
    fault = found[-1].fault()
    if fault:
        return envelope(data) or (TEXT if is_text(data) else CUT if fault.cause == "Truncated" else OTHER)
    types = [segment.kind() & 0x1F for segment in found]
    if types[0] == DICTIONARY:
        return LIBRARY
    records = record_kinds(omf, path)
    if "ENTRY" in records:
        return RUNTIME
    if records & set(OF_LOAD_FILES) or set(types) & set(TABLES):
        return LOAD
    return OBJECT if records & set(OF_OBJECTS) else EITHER
