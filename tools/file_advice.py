"""What is to be done about a fault of a file of segments, by the record that has it and by what the other files hold."""
import os, pathlib, re

import kinds
from forms import FORMS
from kinds import EITHER, LIBRARY, LOAD, OBJECT, RUNTIME, kind_of
from listings import definitions, formula, names_of
from segments import TYPES, Segment, number, segments
from source_advice import MOST_BYTES, MOST_FILES, Advice, near, one_of

LINKS = ("link", "rtl", "linkrt", "omf_map")
PUBLIC = ("SEGNAME", "GLOBAL", "GEQU")
# The opcodes of the modes with two bytes of address whose mnemonic has a mode with three.
LONG = {0x0D: "ORA", 0x2D: "AND", 0x4D: "EOR", 0x6D: "ADC", 0x8D: "STA", 0xAD: "LDA", 0xCD: "CMP", 0xED: "SBC"}
LONG_X = {opcode + 0x10: name for opcode, name in LONG.items()}
# Those with Y, which have no mode with three bytes, but their mnemonics have one with X.
WITH_Y = {opcode + 0x0C: name for opcode, name in LONG.items()}
JUMPS = {0x20: "JSL", 0x4C: "JML"}
# The opcodes of branches with a condition, and the mnemonics with the opposite one.
CONDITIONS = {0x10: "BMI", 0x30: "BPL", 0x50: "BVS", 0x70: "BVC", 0x90: "BCS", 0xB0: "BCC", 0xD0: "BEQ", 0xF0: "BNE"}
REACH = {1: (-128, 127), 2: (-32768, 32767)}


class Fault:
    """A fault of a file: how the program is run, the command and its files, the number of the file among these, the cause, the name that
    it reports, and the place with the listing of its segment where it has one."""

    def __init__(self, omf, command, words, files, file, cause, name, segment, place, listing):
        self.omf, self.command, self.words, self.files, self.file = omf, command, words, files, file
        self.cause, self.name, self.segment, self.place, self.listing = cause, name, segment, place, listing
        self.path = files[file]
        self.data = pathlib.Path(self.path).read_bytes()

    def record(self):
        """The kind and the fields of the record at the place; None where none is there."""
        line = self.listing and self.listing.line(self.place)
        return line.split(" ")[1:] if line else None

    def names(self):
        """The names in the record's expression, and the expression itself."""
        record = self.record()
        data = bytes.fromhex(record[-1])
        length = self.header().field("LABLEN")
        return names_of(data, length), formula(data, length)

    def header(self):
        return list(segments(self.data))[self.segment - 1]


# ---- what the file is


def wrong_kind(fault):
    """Where the file isn't of the kind that the command takes."""
    kind = kind_of(fault.omf, fault.path)
    text = wrong_text(fault) if kind == kinds.TEXT else wrong_segments(fault, kind)
    if kinds.envelope(fault.data):
        text = "take the file out of it first; `docs/MOVING.md`, \"Envelopes\", says how"
    if text:
        yield Advice(text, file_is=f"it is {kind}")


def wrong_text(fault):
    """What to do with a text."""
    if re.search(rb"(?mi)^banks ", fault.data):
        return "a script of the loader is run by `run`"
    if fault.command == "compact":
        return "where it is a source, assemble it, link the object, and give what `link` wrote"
    stem = re.sub(r"(?<=[^/])\.[^./]*$", "", fault.path)
    return f"where it is a source, assemble it first by `asm {fault.path} {stem}.o`, and give {stem}.o"


def wrong_segments(fault, kind):
    """What to do with a file of segments of another kind; None where it is of the right one."""
    if fault.command in LINKS and kind == RUNTIME:
        return f"`{with_runtime(fault)}` {'maps' if fault.command == 'omf_map' else 'links'} a program with it"
    if fault.command in (*LINKS, "lib") and kind == LOAD:
        return "it is linked already: give the objects of which it was made"
    if fault.command == "lib" and kind == LIBRARY:
        return "give its objects, or give both libraries to `link`"
    if fault.command == "compact" and kind in (OBJECT, EITHER, LIBRARY):
        return "link it first, and give the load file"
    if fault.command == "list" and kind in (LOAD, RUNTIME):
        return "give the object of which it was made; `dump` lists this one"
    return None


def with_runtime(fault):
    """The call of linkrt, or of its map, with the run-time library files at the end."""
    runtime = [path for path in fault.files if kind_of(fault.omf, path) == RUNTIME]
    others = [path for path in fault.files if path not in runtime]
    return " ".join([*linkrt(fault), str(len(runtime)), *(others or ["FILE.."]), *runtime])


def linkrt(fault):
    """What is before K in a call of linkrt, or of its map, in the place of the one that was refused."""
    return ("omf_map", "linkrt") if fault.command == "omf_map" else ("linkrt", fault.words[0] if fault.words else "OUT")


def bad_runtime(fault):
    kind = kind_of(fault.omf, fault.path)
    if any(kind_of(fault.omf, path) == RUNTIME for path in fault.files):
        text = f"K says that the last {fault.words[1]} of the files are run-time library files: write `{with_runtime(fault)}`"
    else:
        text = "none of the files is a run-time library file: `rtl` makes one, of objects whose segments have KIND $8000"
    yield Advice(text, file_is=f"it is {kind}, and no run-time library file")


def bad_header(fault):
    """Which field of the header is at fault, and what it has to be."""
    yield from wrong_kind(fault)
    segment = fault.header()
    header = segment.fault()
    if header:
        rest = fault.data[segment.start :]
        if segment.start and not any(rest):
            yield Advice(f"after its last segment the file has {len(rest)} zeros: `head -c {segment.start} {fault.path} >new` cuts them off")
        said = f"{field_said(fault, segment, header)}{header.check}"
        if fault.cause == "Truncated":
            yield Advice(f"{said}; the file was cut, or changed by a copy as a text: make or fetch it anew")
        yield Advice(said, is_sure=False)
    elif fault.cause == "Unsupported":
        yield from unsupported(fault, segment)


def field_said(fault, segment, header):
    """The field of a header at fault, and its value, before what it has to be; empty where the fault is of none."""
    if not header.field:
        return ""
    at, size = segment.span(header.field)
    return f"{header.field} of the segment's header is ${number(fault.data, segment.start + at, size):0{2 * size}X}: "


def unsupported(fault, segment):
    """Of a segment whose header has no fault by itself."""
    kind = segment.kind() & 0x1F
    if segment.name().lower() in (b"expressload", b"~expressload"):
        yield Advice("the load file is expressed: `docs/MOVING.md` says how the segment ExpressLoad is cut off")
    if kind in kinds.TABLES and fault.command in LINKS:
        yield Advice(f"the segment is of the type {TYPES[kind]}, which load files have: give the objects of which this file was made")
    if segment.field("ORG") >= 0x80000000 and fault.place == segment.start + segment.span("ORG")[0]:
        yield Advice(f"ORG of the segment's header is ${segment.field('ORG'):08X}, and has to be below $80000000")
    code = fault.data[fault.place : fault.place + 1]
    if code and fault.place >= segment.start + segment.field("DISPDATA"):
        yield Advice(f"the record there begins with ${code[0]:02X}, which is no code that is read, or it is a SUPER of such a type", is_sure=False)


# ---- names


def sources_of_names(fault, beside=True):
    """What each of the files defines, and then what those beside them do: each name with its kind, file, segment and privacy."""
    given = [os.path.realpath(path) for path in fault.files]
    others = sorted(pathlib.Path(fault.path).parent.iterdir(), key=lambda it: it.name)[:MOST_FILES] if beside else []
    for path in [*fault.files, *map(str, others)]:
        is_given = path in fault.files
        if not is_given and (not os.path.isfile(path) or os.path.realpath(path) in given or os.path.getsize(path) > MOST_BYTES):
            continue
        if not is_given and kind_of(fault.omf, path) not in (OBJECT, LIBRARY, EITHER, RUNTIME):
            continue
        is_runtime = kind_of(fault.omf, path) == RUNTIME
        yield from ((is_given, path, it) for it in definitions(fault.omf, path) if (it.kind == "ENTRY") == is_runtime)


def unresolved(fault):
    name, record = fault.name, fault.record()
    found = list(sources_of_names(fault))
    named = [(is_given, path, it) for is_given, path, it in found if it.name == name]
    by_using = record and record[0] == "USING"
    if by_using and any(it.kind == "SEGNAME" and not it.is_data for _, _, it in named):
        yield Advice(f"{name} is a segment of code, and USING takes one of DATA: leave USING out, and make the labels that are meant ENTRY")
    for is_given, path, it in named:
        if not is_given and it.kind == "ENTRY":
            rest = " ".join([*fault.files, path])
            yield Advice(f"{path}, a run-time library file, has it: `{' '.join(linkrt(fault))} 1 {rest}`")
        elif not is_given and it.kind in PUBLIC and not it.is_private:
            yield Advice(f"{path} defines it, and isn't among the arguments: `{fault.command} {' '.join([*fault.words, path])}`")
    for is_given, path, it in named:
        where = f"{path}, segment {it.segment},"
        if is_given and it.is_private and path != fault.path:
            yield Advice(f"{where} has it, but for its own file alone: make it public, by START in the place of PRIVATE, or DATA in the place of PRIVDATA")
        if is_given and it.kind in ("LOCAL", "EQU") and it.is_data:
            yield Advice(f"{name} is a label of the data segment {it.segment}: write ` USING {it.segment}` in the segment that uses it, {fault.listing.name if fault.listing else 'here'}")
        if is_given and it.kind == "LOCAL":
            yield Advice(f"{where} has it as a label that is seen in that segment alone: write `{name} ENTRY` on a line before it there")
        if is_given and it.kind == "EQU":
            yield Advice(f"{where} has it as an EQU, which is seen in that segment alone: write it as GEQU")
    for _, path, it in found:
        if it.name.upper() == name.upper() and it.name != name:
            yield Advice(f"{path} has `{it.name}`: names are compared byte by byte, and `asm` writes them in capitals")
    guess = near(name, [it.name for is_given, _, it in found if is_given and it.kind != "ENTRY"])
    if guess:
        yield Advice(f"perhaps {one_of(guess)} is meant", is_sure=False)


def duplicate(fault):
    record = fault.record()
    names = [record[1]] if record and record[0] in ("USING", "STRONG") else fault.names()[0] if record else []
    name = fault.name or (names[0] if names else None)
    there = [(path, it) for is_given, path, it in sources_of_names(fault, beside=False) if it.name == name and it.kind in PUBLIC]
    there = [f"{path}, segment {it.number} {it.segment}".rstrip() for path, it in there]
    if len(there) > 1:
        yield Advice(f"{name} is in {', and in '.join(there)}: leave one of these files out, rename one of the names, or make one PRIVATE")


# ---- values


def does_not_fit(fault):
    record = fault.record()
    if not record:
        return
    names, text = fault.names()
    case = {"RELEXPR": branch, "BEXPR": address, "ZEXPR": one_byte, "EXPR": bytes_alone, "LEXPR": bytes_alone}.get(record[0])
    if case:
        yield from case(fault, int(record[1], 16), names, text)


def where_is(fault, name):
    """The definition of a name that the record's own segment has, or else those of the other files."""
    own = fault.listing.offsets().get(name)
    others = [it for _, _, it in sources_of_names(fault, beside=False) if it.name == name]
    return own, others


def load_name(fault):
    return fault.header().load_name().rstrip()


def branch(fault, count, names, text):
    own, others = where_is(fault, names[0]) if names else (None, [])
    longer = "BRL, or JMP" if count == 1 else "JML"
    if own is not None:
        distance = own - fault.listing.offset_of(fault.place) - count
        if text == names[0]:
            least, most = REACH[count]
            far = f"{abs(distance):,} bytes {'after' if distance > 0 else 'before'} the next instruction, and this branch goes {most if distance > 0 else -least:,} at most"
            opposite = CONDITIONS.get(fault.listing.byte_before(fault.place))
            write = f"write `{opposite} *+5` and after it `JMP {names[0]}`" if opposite and count == 1 else f"write {longer}"
            yield Advice(f"{names[0]} is {far}: {write}")
    elif any(it.load_name != load_name(fault) for it in others):
        yield Advice(f"{names[0]} is in another load segment, and a branch stays in its own: write `JML {names[0]}`, or give both segments one load name")
    elif others:
        yield Advice(f"{names[0]} is in another segment, too far for this branch: write {longer}")
    elif not names:
        yield Advice(f"a branch goes to a label, and {text} is a number: give the place a name in column 1")


def address(fault, count, names, text):
    opcode = fault.listing.byte_before(fault.place)
    if "|" in text:
        yield Advice(f"a part of an address, as in `PEA {text}`, is written by bytes: `DC I1'$F4',I2'{text}'`")
    if not names:
        yield Advice(f"{text} is above $FFFF: write `>` before it")
        return
    why = f"{names[0]} is in another load segment, which may be in another bank"
    own, others = where_is(fault, names[0])
    if own is not None or others and all(it.load_name == load_name(fault) for it in others):
        why = f"all of the load segment of {names[0]} is DATA, which may go over the end of a bank"
    share = "or give both segments the same load name, as in `MAIN START NAME`" if why.startswith(names[0]) else "or give it the load name of a START"
    if opcode in JUMPS:
        yield Advice(f"{why}: write `{JUMPS[opcode]} {text}`, {share}")
    elif opcode in LONG or opcode in LONG_X:
        index = ",X" if opcode in LONG_X else ""
        yield Advice(f"{why}: write `{LONG.get(opcode) or LONG_X[opcode]} >{text}{index}`, which has three bytes of address, {share}")
    elif opcode in WITH_Y:
        yield Advice(f"{why}: write `{WITH_Y[opcode]} >{text},X`, which has three bytes of address, with X in the place of Y, {share}")
    else:
        yield Advice(f"{why}, and this instruction has no address of three bytes: {share.removeprefix('or ')}, or take LDA and STA with `>{text}`")


def one_byte(fault, count, names, text):
    if names:
        yield Advice(f"`<` and the direct page take a number up to $FF, and {names[0]} is a place, or a number above it: write it without `<`, or give it a number by EQU")
    else:
        yield Advice(f"`<` and the direct page take a number up to $FF, and {text} is above it: write it without `<`")


def bytes_alone(fault, count, names, text):
    yield Advice(f"{text} isn't known before the program is loaded, or has more than {count} bytes: write it as an address, or as a DC of three or four bytes", is_sure=False)


CASES = {
    "BadRuntime": bad_runtime,
    **dict.fromkeys(("Unsupported", "BadHeader", "Truncated"), bad_header),
    **dict.fromkeys(("BadRecord", "NotLoadFile", "NotListable"), wrong_kind),
    "Unresolved": unresolved,
    "Duplicate": duplicate,
    "DoesNotFit": does_not_fit,
}


def of_place(fault):
    """The first advice that fits the file; None where there is none but that of the cause."""
    return next(filter(None, CASES[fault.cause](fault)), None) if fault.cause in CASES else None


def not_loadable(omf, path):
    """What is to be done where `run` loads a file that is no load file; None where it is one."""
    kind = kind_of(omf, path)
    if kind == kinds.TEXT:
        return Advice("assemble it, link the object, and load what `link` wrote", file_is=f"it is {kind}")
    if kind in (OBJECT, LIBRARY, EITHER):
        return Advice("link it first, and load what `link` wrote", file_is=f"it is {kind}")
    return None
