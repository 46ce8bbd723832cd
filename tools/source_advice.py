"""What is to be done about a fault of a source, by the line that has it and by what is around it."""
import difflib, os, pathlib, re

from forms import inputs
from macro_files import macro_file, named_files
from source_text import NAME, SEGMENT_STARTS, SourceFile
from words import DIRECTIVES, IGNORED, MODES, STATEMENTS

OPERATIONS = (*MODES, *DIRECTIVES, *IGNORED, *STATEMENTS)
# What other assemblers call an operation, and what is written here. docs/MOVING.md has more.
ELSEWHERE = {
    **{"INA": "INC A", "DEA": "DEC A", "SWA": "XBA", "TAD": "TCD", "TDA": "TDC", "TAS": "TCS", "TSA": "TSC", "CPA": "CMP"},
    **{"=": "NAME EQU 5", ":=": "NAME EQU 5", ".EQU": "NAME EQU 5", "DB": "DC I1'1'", "DFB": "DC I1'1'", ".BYTE": "DC I1'1'", "DC.B": "DC I1'1'"},
    **{"DW": "DC I2'1'", "DA": "DC I2'NAME'", ".WORD": "DC I2'1'", ".ADDR": "DC I2'NAME'", "DC.W": "DC I2'1'", "DC.L": "DC I4'1'", ".DWORD": "DC I4'1'"},
    **{"ADR": "DC A3'NAME'", "ADRL": "DC A4'NAME'", "ASC": "DC C'text'", ".ASCIIZ": "DC C'text',I1'0'", "STR": "DC I1'4',C'text'", "HEX": "DC H'01FF'"},
    **{".RES": "DS 16", ".PROC": "NAME START", "PROC": "NAME START", ".ENDPROC": "END", "ENDP": "END", "ENT": "NAME ENTRY", ".EXPORT": "NAME ENTRY"},
    **{"LDAL": "LDA >NAME", "STAL": "STA >NAME", "JMPL": "JML NAME", "JSRL": "JSL NAME", "MOVE": "LDA and STA", "CALL": "JSR NAME", "RET": "RTS"},
    **{"ENDM": "MEND", ".ENDMACRO": "MEND", "EOM": "MEND", "<<<": "MEND", "MAC": "MACRO, and a model line after it", ".MACRO": "MACRO, and a model line after it"},
    **{".A16": "LONGA ON", ".A8": "LONGA OFF", ".I16": "LONGI ON", ".I8": "LONGI OFF", ".ORG": "ORG $2000 before the START", "BYTE": "DC I1'1'", "WORD": "DC I2'1'"},
}
# What other assemblers have and needs no line here, and what takes the text of another file.
LEFT_OUT = "MLOAD MDROP 65C02 REL TYP DSK SAV LNK XC LST EXP AST EXT IMPORT .IMPORT .P816 .SMART .SETCPU MACHINE".split()
OTHER_TEXTS = "COPY APPEND PUT INCLUDE .INCLUDE".split()
# The operands that a mnemonic takes, by its modes.
FORMS_OF_MODES = {
    **{"A": "A", "#": "#e", "sig": "e", "d": "e", "a": "e", "al": ">e", "r": "e", "rl": "e", "d,x": "e,X", "a,x": "e,X", "al,x": ">e,X"},
    **{"d,y": "e,Y", "a,y": "e,Y", "(d)": "(e)", "(a)": "(e)", "(d),y": "(e),Y", "(d,x)": "(e,X)", "(a,x)": "(e,X)", "[d]": "[e]", "[a]": "[e]"},
    **{"[d],y": "[e],Y", "d,s": "e,S", "(d,s),y": "(e,S),Y", "xyc": "e,f"},
}
ACCUMULATOR = "ORA AND EOR ADC BIT LDA CMP SBC".split()
INDEXES = "LDX LDY CPX CPY".split()
# Characters that look as others do, and those that are meant.
ALIKE = {"\u2018": "'", "\u2019": "'", "\u201c": "'", "\u201d": "'", "\u2013": "-", "\u2014": "-", "\u2212": "-", "\ufeff": "", "\u200b": "", "\u00b4": "'"}
NO_BREAK = "\u00a0"
# Of the files beside a source, how many are looked at, and how long they are at most.
MOST_FILES, MOST_BYTES = 100, 0x100000


class Advice:
    """What is to be done. Where it is sure, the general advice of the cause isn't needed besides. Where it says what the file is, this is
    said in the place of what the cause means."""

    def __init__(self, text, is_sure=True, file_is=None):
        self.text, self.is_sure, self.file_is = text, is_sure, file_is


class Fault:
    """A fault of a line: the command and its arguments, the files that it reads, the number of the one at fault, the line, and the cause."""

    def __init__(self, command, words, file, number, cause):
        self.command, self.words, self.file, self.cause = command, words, file, cause
        self.files = [SourceFile(path) for path in inputs(command, words)]
        self.source = self.files[file]
        self.line = self.source.line(number)

    def macros(self):
        """The macros of all files, those of the macro files first, each with its file."""
        return [(source, macro) for source in self.files[1:] + self.files[:1] for macro in source.macros()]


def near(word, known):
    """What of the known words is spelled nearly so: first those of the same letters, and then those that begin so."""
    word, known = word.upper(), list(dict.fromkeys(known))
    found = difflib.get_close_matches(word, known, n=len(known) or 1)
    return sorted(found, key=lambda it: (sorted(it) != sorted(word), -len(os.path.commonprefix([it, word]))))[:3]


def one_of(words):
    return " or ".join(f"`{word}`" for word in words)


def perhaps(word, known):
    found = near(word, known)
    return Advice(f"perhaps {one_of(found)} is meant", is_sure=False) if found else None


# ---- files that are no plain text


def is_high(data):
    """Whether nearly all characters have bit 7 set."""
    letters = [byte for byte in data if byte & 0x7F > 0x20]
    return len(letters) > 2 * sum(byte < 0x80 for byte in letters)


def of_file(path, data, number):
    """What a file is that is no plain text, and what to do then; None of a plain text."""
    if data[:2] in (b"\xff\xfe", b"\xfe\xff"):
        return "this file is a text of UTF-16, with two bytes a character", f"`iconv -f UTF-16 -t UTF-8 {path} >new` writes it as one that is read"
    control = re.search(rb"[\x00-\x08\x0e-\x1f\x7f]", data)
    if control:
        return f"this file isn't text: it has the byte ${control[0][0]:02X} at ${control.start():08X}", "give a source: a text with a line for each statement"
    if is_high(data):
        return "the characters of this file have bit 7 set, as some editors of the Apple II write them", f"`tr '\\200-\\377' '\\000-\\177' <{path} >new` clears it"
    if number == 1 and data.startswith(b"\xef\xbb\xbf"):
        return "this file begins with a byte-order mark, three bytes before its first character", f"save it as UTF-8 without one; `tail -c +4 {path} >new` cuts it off"
    return None


def strange_character(fault):
    """A character of a field that no field can have outside quotes, with its column."""
    line = fault.line
    fields = line.text[: len(line.text) - len(line.comment)]
    try:
        text = fields.encode("latin-1").decode()
    except UnicodeDecodeError:
        text = fields.replace("\xca", NO_BREAK)
    for column, character in enumerate(text, 1):
        if character == NO_BREAK:
            return Advice(f"column {column} has a no-break space, which looks like a blank and is none: write a blank there")
        if character in ALIKE:
            meant = f"`{ALIKE[character]}`" if ALIKE[character] else "nothing"
            return Advice(f"column {column} has the character {character.strip(chr(0xFEFF) + chr(0x200B))} (U+{ord(character):04X}), as editors for letters put it: write {meant} there")
    return None


# ---- operations


def unknown_operation(fault):
    line = fault.line
    operation, label = line.operation, line.label.upper()
    known = (*OPERATIONS, *(macro.name for _, macro in fault.macros()))
    if operation[0] in ";*!":
        yield Advice(f"a comment on a line of its own begins in column 1: put the `{operation[0]}` there")
    if label in known and label:
        yield Advice(f"{label} is in column 1, where labels are: put a blank before it")
    if label.startswith(("//", "/*", "#", "--")) or operation.startswith(("//", "/*")):
        yield Advice("a comment begins with `*` or `;` in column 1; after an operand it needs no sign")
    if operation in ELSEWHERE:
        yield Advice(f"{operation} is what other assemblers have: here write `{ELSEWHERE[operation]}`; `docs/MOVING.md` has their other words")
    if operation in LEFT_OUT:
        yield Advice(f"leave this line out: {operation} isn't needed here; `docs/MOVING.md` has more of what other assemblers have")
    if operation in OTHER_TEXTS:
        yield Advice(f"there is no {operation} here: assemble each file by itself and link the objects, or put the texts together by `cat`; macro files are arguments")
    if operation[0] == ".":
        yield Advice("directives have no dot here: compare it with those in `docs/ASSEMBLER.md`; `docs/MOVING.md` has what ca65 and others spell otherwise", is_sure=False)
    glued = re.match(r"([A-Z]{2,})([^A-Z_~].*)", operation)
    if glued and glued[1] in known:
        yield Advice(f"write a blank between {glued[1]} and its operand: `{glued[1]} {glued[2]}`")
    yield macro_elsewhere(fault)
    yield perhaps(operation, known)


def macro_elsewhere(fault):
    """Where the macro is defined that the line calls: later in the source, or in a file that wasn't given."""
    name = fault.line.operation
    for macro in fault.source.macros():
        if macro.name == name and macro.number > fault.line.number and not fault.file:
            return Advice(f"{name} is a macro that is defined on line {macro.number}, after this call: put its definition before the first call")
    files = [path for path in files_beside(fault) if defines(path, name)]
    if not files:
        return None
    words = " ".join([*fault.words, files[0]])
    others = f" (there is one in {one_of(files[1:3])} too)" if files[1:] else ""
    return Advice(f"{name} is a macro of the file `{files[0]}`, which isn't among the arguments{others}: `{fault.command} {words}`")


def defines(path, name):
    """Whether a file has a definition of this name; most files don't even have the word."""
    has_word = name.encode("latin-1") in pathlib.Path(path).read_bytes().upper()
    return has_word and name in [macro.name for macro in SourceFile(path).macros()]


def files_beside(fault):
    """The files that the source names by MCOPY, and those beside it, but for those that the command reads."""
    source = pathlib.Path(fault.files[0].path)
    text = fault.files[0].data.decode(errors="surrogateescape")
    named = [macro_file(source, name) for _, name in named_files(text)]
    beside = sorted(source.parent.iterdir(), key=lambda it: it.name)[:MOST_FILES]
    given = [os.path.realpath(path) for path in fault.words]
    for path in dict.fromkeys([*filter(None, named), *map(str, beside)]):
        if os.path.isfile(path) and os.path.getsize(path) <= MOST_BYTES and os.path.realpath(path) not in given:
            yield path


# ---- segments and labels


def outside_segment(fault):
    line, source = fault.line, fault.source
    if fault.file:
        return
    start = source.open_segment(line.number)
    if line.operation in SEGMENT_STARTS and start:
        yield Advice(f"the segment {start.label} begins on line {start.number} and has no END yet: write ` END` before this line")
    ended = next((it for it in source.before(line.number) if it.operation == "END"), None)
    if line.operation == "END":
        yield Advice(f"line {ended.number} has ended the segment: leave one END out" if ended else "no segment has begun: write `NAME START` before its first line")
    if line.operation in ("EQU", "="):
        yield Advice(f"outside of segments write `{line.label or 'NAME'} GEQU {line.operand}`, or put this line after a START")
    if ended:
        yield Advice(f"line {ended.number} has ended the segment: put this line before it, or begin another one by `NAME START`")
    yield Advice("no segment has begun: write a line `NAME START` before this one, with NAME in column 1, and ` END` after the last one")


def bad_label(fault):
    line = fault.line
    label, name = line.label, line.label.rstrip(":")
    if not label:
        yield Advice(f"{line.operation} needs a name in column 1, as in `NAME {line.operation} {line.operand}`".rstrip(" `") + "`")
    if label.startswith(("//", "/*", "#", "--")):
        yield Advice("a comment begins with `*` or `;` in column 1")
    if label.endswith(":") and NAME.fullmatch(name):
        yield Advice(f"write `{name}`, without the colon")
    if label[0] in ":@]" and NAME.fullmatch(name[1:]):
        yield Advice(f"write `{name[1:]}`: a label of a segment is seen in this segment alone, so it needs no `{label[0]}`; in a macro write `{name[1:]}&SYSCNT`")
    if label[0].isdigit():
        yield Advice(f"a name begins with a letter, `_` or `~`, and not with {label[0]}: write `L{label}`, say", is_sure=False)
    wrong = next((it for it in label if not re.match(r"[A-Za-z0-9_~&]", it)), None)
    if wrong:
        yield Advice(f"a name has letters, digits, `_` and `~` alone, and no `{wrong}`")


def duplicate(fault):
    line, label = fault.line, fault.line.label.upper()
    if fault.file or "&" in label:
        return
    start = fault.source.open_segment(line.number)
    if start and start.label.upper() == label and start is not line:
        yield Advice(f"{label} is the name of the segment itself, on line {start.number}: take another one here")
    for other in fault.source.before(line.number):
        if other.label.upper() == label and other.operation != "MACRO":
            yield Advice(f"{label} is defined on line {other.number} already: give one of the two another name")


def unclosed(fault):
    line, after = fault.line, fault.source.lines[fault.line.number :]
    if line.operation == "MACRO":
        end = next((it for it in after if it.operation in ("ENDM", "EOM", "<<<", ".ENDMACRO") or it.label.upper() == "MEND"), None)
        if end and end.label.upper() == "MEND":
            yield Advice(f"line {end.number} has MEND in column 1, where it is a label: put a blank before it")
        yield Advice((f"line {end.number} is no end of a macro here: " if end else "") + "write ` MEND`, with a blank before it, after the macro's last line")
        return
    ends = [it for it in after if it.label.upper() == "END"]
    if ends:
        yield Advice(f"line {ends[0].number} has END in column 1, where it is a label: put a blank before it")
    stray = next((it for it in after if it.operation in ("MEND", "MEXIT")), None)
    if stray and fault.source.definition(stray.number) is None:
        yield Advice(f"the {stray.operation} on line {stray.number} is in no macro, and so it ends the source: leave it out, or write MACRO and a model line before it")
    yield Advice(f"write ` END`, with a blank before it, after the last line of the segment {line.label}")


# ---- operands


def place_of(operand):
    return f"`{operand}`"


def bad_operand(fault):
    line = fault.line
    operation, operand, comment = line.operation, line.operand, line.comment
    if "&" in operand:
        return
    if not operand:
        yield Advice(f"{operation} needs an operand; `docs/ASSEMBLER.md` has its form")
    if operation == "DC":
        yield from bad_constant(line)
    if operation in ("LONGA", "LONGI", "MSB"):
        yield Advice(f"write `{operation} ON` or `{operation} OFF`")
    if operation in ("MVN", "MVP") and "#" in operand:
        yield Advice(f"write the banks without `#`: `{operation} {operand.replace('#', '')}`")
    if operation == "DS":
        yield Advice(f"DS takes one number, and gives as many zeros: `DC 16I1'$FF'` gives 16 bytes of another value")
    if operation == "KIND":
        yield Advice("the type, which is the last two digits of KIND, has to be one of the format: $00 code, $01 data, $10 initialization, $12 direct page and stack; `KIND $8000` makes code dynamic")
    if operation in SEGMENT_STARTS:
        yield Advice(f"what follows {operation} is the name of the load segment, of ten bytes at most: put a comment on a line of its own")
    start = fault.source.open_segment(line.number) if not fault.file else None
    if operation == "ORG" and start:
        yield Advice(f"put this ORG before the START on line {start.number}; in a segment it is `ORG *+n`, which leaves n bytes free")
    if operation == "ALIGN" and start:
        yield Advice(f"write this ALIGN before the START on line {start.number} too: in a segment it is at most what the segment asks for there, and a power of 2")
    if open_quote(operand):
        quote = open_quote(operand)
        yield Advice(f"the text has no `{quote}` at its end: write `{operation} {operand}{quote}`, say")
    if comment and re.search(r"[#,+\-/(<>|=!^*\[]$", operand):
        joined = operand + comment.split(" ")[0]
        yield Advice(f"an operand ends at its first blank outside of quotes, so this one is {place_of(operand)}: write it without blanks, as `{joined}`")
    hexadecimal = re.search(r"\b0[xX]([0-9A-Fa-f]+)\b|\b([0-9][0-9A-Fa-f]*)[hH]\b", operand)
    if hexadecimal:
        yield Advice(f"write `${hexadecimal[1] or hexadecimal[2]}`: a hexadecimal number begins with `$`")
    if re.search(r"\b0b[01]+\b", operand):
        yield Advice("a binary number begins with `%`, as in `%101`")
    digits = re.search(r"\$(?![0-9A-Fa-f])|\$[0-9A-Fa-f]+[G-Zg-z_]\w*", operand)
    if digits:
        yield Advice("after `$` there are hexadecimal digits alone, 0 to 9 and A to F")
    if re.search(r"\b[0-9]+[_.][0-9]", operand):
        yield Advice("a number has digits alone, without `_` or a point")
    for quoted in re.findall(r"'([^']*)'", operand) if operation in MODES else []:
        if not 1 <= len(quoted) <= 4:
            yield Advice("a number that is written as a text has one to four characters; a longer text goes into a DC")
    wrong = re.search(r"<<|>>|\^(?!.*#)|(?<![\d\w])::|[?{};\\]", re.sub(r"'[^']*'", "", operand))
    if wrong and wrong[0] in ("<<", ">>"):
        yield Advice("a shift is written `|`: `1|4` to the left, `1|-4` to the right")
    if wrong and wrong[0] == "^":
        yield Advice("`^` is written after `#` alone; in a DC the bank of a name is `DC I1'NAME|-16'`")
    if re.search(r"[,+\-/|*]$", operand) and operand != "*":
        yield Advice(f"the operand breaks off after `{operand[-1]}`: write what follows there, or leave it out")
    for opening, closing in ("()", "[]"):
        if operand.count(opening) > operand.count(closing):
            yield Advice(f"a `{opening}` has no `{closing}`")
        if operand.count(opening) < operand.count(closing):
            yield Advice(f"a `{closing}` has no `{opening}` before it")
    if re.match(r"[(\[].*[)\]][^,]", operand):
        yield Advice("a parenthesis that opens an operand is its form, an address in memory: write the formula so that it begins with something else, as `COUNT*2+2`")
    local = re.search(r"(?<![\w'])[:@\]][A-Za-z_]\w*|\w+::\w+", operand)
    if local:
        yield Advice(f"write `{local[0].lstrip(':@]')}`: labels have no sign before their name")
    index = re.search(r"\),([^YySs].*)$", operand)
    if index:
        yield Advice("after a parenthesis the index is Y: `(e),Y`; X and S are written in it: `(e,X)`, `(e,S),Y`")


def open_quote(text):
    """The quote that no other one ends; None where there is none."""
    quote = None
    for byte in text:
        quote = (None if byte == quote else quote) if quote else byte if byte in "'\"" else None
    return quote


def bad_constant(line):
    """Of a DC."""
    operand = line.operand
    if operand[:1] in "'\"" and operand:
        yield Advice(f"write a type before the value: `DC C{operand}`" if operand[:1] == "'" else f"write `DC C'{operand.strip(chr(34))}'`, with a type before the value, and `'` around it")
    quoted = operand.replace('"', "'")
    if '"' in operand and not open_quote(quoted):
        yield Advice(f"write `'` around a value: `DC {quoted}`")
    if open_quote(operand):
        yield Advice(f"the value has no `{open_quote(operand)}` at its end: write one; a `'` in a text is written `''`")
    if operand.endswith(",") and line.comment:
        yield Advice(f"an operand ends at its first blank outside of quotes: write no blank after the comma, as `DC {operand}{line.comment}`")
    kind = re.match(r"(?:\d+|\([^)]*\))?([A-Za-z]+\d*)", operand)
    if kind and not re.fullmatch(r"[IA][1-4]?|[HBCRS]", kind[1].upper()):
        other = {"X": "; hexadecimal digits are `H'01FF'`", "D": "; numbers are `I1'5'` to `I4'5'`", "W": "; two bytes are `I2'5'`", "L": "; four bytes are `I4'5'`"}
        yield Advice(f"DC has no type {kind[1].upper()}{other.get(kind[1][0].upper(), '')}: the types are I1 to I4, A1 to A4, H, B, C, R and S")
    if "'" not in operand:
        value = operand[len(kind[0]) :].lstrip(",") if kind and re.fullmatch(r"[IAHBCRS]\d?", kind[1].upper()) else operand
        yield Advice(f"write the value between `'`, after its type: `DC I1'{value or 5}'`")
    if re.search(r"[IAia]\d?'[^']* ", operand):
        yield Advice("write no blank between the numbers of a value, as in `DC I2'1,2'`")
    count = re.match(r"\d+", operand)
    if count and not 1 <= int(count[0]) <= 65535:
        yield Advice("a repeat count is 1 to 65,535")
    after = re.search(r"'([^',]+)$|'([^',]+),", re.sub(r"'[^']*'", "''", operand))
    if after:
        yield Advice(f"after the `'` that ends a value comes a comma or nothing, and not `{after[1] or after[2]}`: a formula is written between the quotes")
    if re.search(r"[Bb]'[^']*[^01' ]", operand):
        yield Advice("B takes the digits 0 and 1 alone; a number is `I1'5'`")
    if re.search(r"[Hh]'[^']*[^0-9A-Fa-f' ]", operand):
        yield Advice("H takes hexadecimal digits alone, 0 to 9 and A to F, and no `$`; a text is `C'text'`")


def forms_of(operation):
    """The operands that a mnemonic takes, as they are written."""
    modes = MODES.get(operation, "").split()
    found = [FORMS_OF_MODES[mode] for mode in modes if mode in FORMS_OF_MODES]
    # Of one that has no other address a plain one has three bytes.
    return list(dict.fromkeys(found if "a" in modes else [form.lstrip(">") for form in found]))


def bad_mode(fault):
    operation, operand = fault.line.operation, fault.line.operand
    forms, plain = forms_of(operation), operand.lstrip("#<>|!([").rstrip(")]")
    forms_said = f"takes {one_of(forms)}, where e is a number, a name or a formula"
    if "&" in operand:
        yield Advice(f"{operation} {forms_said}; {expansion(fault)}")
        return
    if not operand:
        yield Advice(f"{operation} needs an operand: it {forms_said}")
    if operand[0] == ">" and operation in ("JMP", "JSR"):
        yield Advice(f"write `{'JML' if operation == 'JMP' else 'JSL'} {operand[1:]}`: {operation} stays in its bank")
    if operation == "JMP" and operand[0] == "[" or operation == "JML" and operand[0] == "(":
        yield Advice(f"write `JML [{plain}]`, which jumps through an address of three bytes" + (f", or `JMP ({plain})` through one of two" if operation == "JML" else ""))
    if operand[0] == "#" and "e" in forms and MODES[operation] == "a":
        yield Advice(f"write `{operation} {operand[1:]}`: it pushes the number itself, and takes no `#`")
    if operand[0] == "#" and operation[:2] == "ST":
        yield Advice(f"{operation} writes to an address, and not to a number: load the number first, by `LD{operation[2].replace('Z', 'A')} {operand}`, and write `{operation} NAME` then")
    if forms == ["#e"]:
        yield Advice(f"write `{operation} #{plain}`")
    if forms == ["(e)"]:
        yield Advice(f"write `{operation} ({plain})`")
    if forms == ["e,f"]:
        yield Advice(f"write two numbers, the bank of the source and that of the destination: `{operation} 1,2`")
    yield from other_index(operation, operand, forms)
    long = f"; {operation} has no address of three bytes, which LDA and STA have" if operand[0] == ">" else ""
    yield Advice(f"{operation} {forms_said}{long}")


def other_index(operation, operand, forms):
    """The index register that the mnemonic has in this place."""
    inside = re.fullmatch(r"\((.*)\),[Xx]", operand)
    if inside and "(e,X)" in forms:
        yield Advice(f"write `{operation} ({inside[1]},X)`, or `{operation} ({inside[1]}),Y`: X is added before the address is read, and Y after it")
    index = re.fullmatch(r"([^(\[].*),([XxYy])", operand)
    for other in "XY":
        if index and index[2].upper() != other and f"e,{other}" in forms:
            yield Advice(f"write `{operation} {index[1]},{other}`, with the index in {other}: here {operation} takes none from {index[2].upper()}")
    if index and "e,X" not in forms and "e,Y" not in forms:
        yield Advice(f"{operation} takes no index register: it takes {one_of(forms)}, where e is a number, a name or a formula")


def expansion(fault):
    """How a line of a macro is seen with the texts of a call."""
    files = " ".join(source.path for source in fault.files)
    return f"`omf_expand {files}` prints this line with the texts of each call"


# ---- values


def unknown_constant(fault):
    line = fault.line
    if fault.file or "&" in line.operand:
        return
    operand = re.sub(r"'[^']*'", "", line.operand) if line.operation == "DC" else line.operand
    for name in NAME.findall(operand) if operand else []:
        where = [it for it in fault.source.lines if it.label.upper() == name.upper()]
        value = next((it for it in where if it.operation in ("EQU", "GEQU")), None)
        if value and value.number > line.number:
            yield Advice(f"{name} gets its value on line {value.number}, after this line: put that {value.operation} before")
        if not where:
            known = [it.label.upper() for it in fault.source.lines if it.operation in ("EQU", "GEQU")]
            guess = near(name, known)
            yield Advice(f"no line gives {name} a value: write `{name} EQU 16` before this line, or the number itself" + (f"; perhaps {one_of(guess)} is meant" if guess else ""))
        if where and not value:
            yield Advice(f"{name} is a label, on line {where[0].number}, whose place the linker alone knows: write the number itself")


def does_not_fit(fault):
    line = fault.line
    operation, operand = line.operation, line.operand
    if "&" in operand:
        return
    if operand[:1] == "#":
        yield immediate_that_does_not_fit(fault)
    if operand[:1] == "<":
        yield Advice(f"`<` asks for an address of one byte, up to $FF: write `{operation} {operand[1:]}`")
    if operand[:1] in "|!" and operand:
        yield Advice(f"`{operand[0]}` asks for an address of two bytes, up to $FFFF: write `{operation} >{operand[1:]}`")
    if operand[:1] == "-":
        yield Advice(f"an address isn't negative: for the number itself write `{operation} #{operand}`")
    if operation in ("MVN", "MVP"):
        yield Advice(f"{operation} takes two banks, up to $FF each, the source's first: of addresses write their banks, as `{operation} NAME|-16,OTHER|-16`")
    if operand.upper().endswith(",S"):
        yield Advice("an offset from S has one byte, up to $FF")
    modes = MODES.get(operation, "").split()
    if modes and not {"al", "al,x"} & set(modes):
        yield Advice(f"{operation} reaches addresses up to $FFFF in the data bank{', or $FF' if 'a' not in modes else ''}: LDA and STA reach all, by `>e`", is_sure=False)


def immediate_that_does_not_fit(fault):
    operation, operand = fault.line.operation, fault.line.operand
    if operation in ("REP", "SEP", "BRK", "COP", "WDM"):
        return Advice(f"{operation} takes one byte, up to $FF")
    width = "LONGA" if operation in ACCUMULATOR else "LONGI"
    setting = next((it for it in fault.source.before(fault.line.number) if it.operation == width), None)
    if setting and setting.operand.upper() == "OFF":
        return Advice(f"{width} is OFF since line {setting.number}, so the number has one byte, up to 255: write `{width} ON` before where the register has 16 bits, or `{operation} #<{operand[1:]}` for the low byte")
    return Advice(f"the number has two bytes, -32,768 to 65,535: `{operation} #<{operand[1:]}` takes the low two bytes, `{operation} #^{operand[1:]}` those from the third on")


def too_long(fault):
    line = fault.line
    if line.operation == "DS" and line.operand.startswith("-"):
        yield Advice("DS takes a number from 0 on, and no negative one")


def line_too_long(fault):
    size, count = len(fault.line.text), len(fault.source.lines)
    if size > 1000 and count <= 2:
        yield Advice(f"the file is one line of {size} bytes: it has no ends of lines, so it was damaged, or is no source")
    if size > 255:
        yield Advice(f"the line has {size} bytes: divide it; a DC can go on in another DC")


# ---- macros


def symbols_of(fault):
    """The symbols that are declared where the line is, or are parameters there."""
    found = ["&SYSCNT"]
    for line in fault.source.body(fault.line.number):
        found += re.findall(r"&[A-Za-z_~][\w~]*", line.operand) if line.operation[:3] in ("LCL", "GBL") else []
    start = fault.source.definition(fault.line.number)
    model = fault.source.line(start.number + 1) if start else None
    return [it.upper() for it in found + (re.findall(r"&[A-Za-z_~][\w~]*", f"{model.label},{model.operand}") if model else [])]


def no_such_symbol(fault):
    line, known = fault.line, symbols_of(fault)
    for symbol in re.findall(r"&[A-Za-z][\w~]*", line.text):
        if symbol.upper() in known:
            continue
        guess = near(symbol, known)
        if guess:
            yield Advice(f"{symbol} isn't declared: perhaps {one_of(guess)} is meant", is_sure=False)
        elif line.operation == "DC" and not fault.source.definition(line.number):
            yield Advice(f"a text has `&` before a letter, which begins a symbol: write the `&` as H'26', as in `DC C'R',H'26',C'D'`")
        elif line.operation in ("SETA", "SETB", "SETC") and symbol == line.label:
            yield Advice(f"declare it on a line before this one: ` LCL{line.operation[-1]} {symbol}`")
        else:
            yield Advice(f"{symbol} isn't declared: make it a parameter on the macro's model line, or declare it by ` LCLA {symbol}` for a number, ` LCLC {symbol}` for a text")


def no_sequence_symbol(fault):
    target = re.search(r"\.[A-Za-z_~][\w~]*$", fault.line.operand)
    if not target:
        return
    name, body = target[0].upper(), fault.source.body(fault.line.number)
    there = [it for it in body if it.label.upper() == name]
    indented = next((it for it in body if it.operation == name), None)
    if len(there) > 1:
        yield Advice(f"lines {there[0].number} and {there[1].number} both have {name} in column 1: give one of them another name")
    if there and there[0].operation == "MEND":
        yield Advice(f"a branch doesn't go to MEND: write `{name} MEXIT` on a line before it, and `MEND` without a label")
    if indented:
        yield Advice(f"{name} on line {indented.number} isn't in column 1: put it there")
    guess = near(name, [it.label for it in body if it.label.startswith(".")])
    if guess:
        yield Advice(f"no line has {name} in column 1: perhaps {one_of(guess)} is meant", is_sure=False)


def bad_arguments(fault):
    if fault.line.number > 1 and fault.source.line(fault.line.number - 1).operation == "MACRO":
        names = ",".join("&" + it.split("=")[0].lstrip("&") for it in fault.line.operand.split(",") if it)
        yield Advice(f"this is a macro's model line: a name, and parameters that begin with `&` and have no values, as ` {fault.line.operation} {names}`; the label is `&NAME` or none")
        return
    operands = re.split(r",(?![^(]*\))", fault.line.operand) if fault.line.operand else []
    for source, macro in fault.macros():
        if macro.name == fault.line.operation and len(operands) > len(macro.parameters):
            takes = f"has the parameters {', '.join(macro.parameters)}" if macro.parameters else "has no parameter"
            yield Advice(f"{macro.name} ({source.path}:{macro.number}) {takes}, and this call more operands: what follows the macro's name is its operand, so put a comment on a line of its own")


def bad_setting(fault):
    line = fault.line
    if line.operation == "SETC" and line.operand[:1] not in ("'", '"'):
        yield Advice(f"write the text between `'`: `{line.label} SETC '{line.operand}'`")
    if line.operation == "AIF" and not re.search(r",\.[\w~]+$", line.operand):
        yield Advice("write `AIF CONDITION,.NAME`, without blanks, where .NAME is in column 1 of a line of the macro")
    if line.operation == "AGO" and not line.operand.startswith("."):
        yield Advice(f"write `AGO .{line.operand.lstrip('^.')}`, with a dot")
    if line.operation == "MNOTE":
        yield Advice("write `MNOTE 'text',16`: a text between `'` and a number, of which 8 and more refuse the call")


CASES = {
    "UnknownOperation": unknown_operation,
    "OutsideSegment": outside_segment,
    "BadLabel": bad_label,
    "Duplicate": duplicate,
    "Unclosed": unclosed,
    "BadOperand": bad_operand,
    "BadMode": bad_mode,
    "UnknownConstant": unknown_constant,
    "DoesNotFit": does_not_fit,
    "SegmentTooLong": too_long,
    "LineTooLong": line_too_long,
    "NoSuchSymbol": no_such_symbol,
    "NoSequenceSymbol": no_sequence_symbol,
    "BadArguments": bad_arguments,
    "BadSetting": bad_setting,
}
# Those for which `omf_expand` prints no line.
EXPANDING = ("LineTooLong", "TooManyLines", "NoSuchSymbol", "BadSetting", "BadArguments", "NoSequenceSymbol", "Counter", "TooNested", "Noted", "Unclosed")


def of_line(fault):
    """The first advice that fits the line; None where there is none but that of the cause."""
    cases = CASES[fault.cause](fault) if fault.cause in CASES else ()
    return strange_character(fault) or next(filter(None, cases), None) or other_character(fault) or of_macro_line(fault)


def other_character(fault):
    """Where a field that is at fault has a character that isn't ASCII."""
    line = fault.line
    found = re.search(r"[\x80-\xff]+", line.text[: len(line.text) - len(line.comment)])
    if not found:
        return None
    return Advice(f"column {found.start() + 1} has ${ord(found[0][0]):02X}, a byte of a character that is no ASCII: labels, operations and numbers have none", is_sure=False)


def of_macro_line(fault):
    """How the line is seen with its symbols replaced, where the fault is one of its statement."""
    if not fault.file or "&" not in fault.line.text or fault.cause in EXPANDING:
        return None
    return Advice(f"{expansion(fault)}, as it is assembled", is_sure=False)
