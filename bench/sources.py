"""The sources that several scripts of this folder assemble: a mixed one, in the dialects of other assemblers too, and one of macro
calls."""
import random

PLAIN = "CLC SEC INX INY DEX DEY TAX TAY TXA PHA PLA PHX PLX XBA PHB PLB".split()
BRANCHES = "BNE BEQ BCC BCS BMI BPL BRA".split()
LOADS = "LDA LDA LDA STA STA ADC SBC CMP AND ORA".split()
REMARKS = ["", "", "save the old value", "next entry", "is it the last one?", "set up the pointer", "high word"]
# The constants of DC, and how 64tass and acme write them.
CONSTANTS = {
    "I2'1,2,WIDTH'": (".word 1,2,WIDTH", "!16 1,2,WIDTH"),
    "C'a text of 20 bytes.'": ('.text "a text of 20 bytes."', '!text "a text of 20 bytes."'),
    "H'00 FF 7F'": (".byte $00,$FF,$7F", "!byte $00,$FF,$7F"),
    "A4'*+2'": (".dword *+2", "!32 *+2"),
    "4I1'0'": (".fill 4,0", "!fill 4,0"),
}
OTHERS = {
    "64tass": ('        .cpu "65816"\n        .al\n        .xl\n* = $1000\n', 0, ["64tass", "--quiet", "--nostart", "-o"]),
    "acme": ("        !cpu 65816\n        !al\n        !rl\n* = $1000\n", 1, ["acme", "-f", "plain", "-o"]),
}


def operand(draw, segment):
    which = draw.randrange(12)
    if which < 3:
        return f"#{draw.randrange(65536)}"
    if which < 6:
        return f"DP{draw.randrange(24)}"
    if which < 8:
        return f"TABLE{draw.randrange(segment + 1)}+{2 * draw.randrange(16)}"
    if which < 9:
        return f"TABLE{draw.randrange(segment + 1)},X"
    if which < 10:
        return f"[DP{draw.randrange(24)}],Y"
    if which < 11:
        return f">FAR{draw.randrange(8)}"
    return f"WIDTH*{draw.randrange(9)}+1"


def statement(draw, segment, place):
    which = draw.randrange(20)
    if which < 4:
        return draw.choice(PLAIN), ""
    if which < 6:
        return draw.choice(BRANCHES), f"L{segment}_{4 * draw.randrange(max(0, place // 4 - 5), place // 4 + 1)}"
    if which < 8:
        return "JSL", f"S{draw.randrange(segment + 1)}"
    if which < 9:
        return "DC", draw.choice(list(CONSTANTS))
    mnemonic, value = draw.choice(LOADS), operand(draw, segment)
    if mnemonic == "STA" and value.startswith("#"):
        mnemonic = "LDA"
    return mnemonic, value


def program(count):
    """The lines, each with its label, its operation, its operand and a remark."""
    draw = random.Random(1)
    lines = [(f"DP{i}", "GEQU", str(2 * i + 2), "") for i in range(24)]
    lines += [(f"FAR{i}", "GEQU", f"${0xE10000 + 16 * i:X}", "") for i in range(8)]
    lines.append(("WIDTH", "GEQU", "160", ""))
    segment = 0
    while len(lines) < count:
        lines.append((f"S{segment}", "START", "", ""))
        for place in range(56):
            label = f"L{segment}_{place}" if place % 4 == 0 else ""
            lines.append((label, *statement(draw, segment, place), draw.choice(REMARKS)))
        lines += [("", "RTL", "", ""), (f"TABLE{segment}", "ENTRY", "", ""), ("", "DS", "32", ""), ("", "END", "", "")]
        segment += 1
    return lines


def orca(label, operation, operand, remark):
    return f"{label:<9}{operation:<6}{operand:<16} {remark}".rstrip() + "\n"


def other(which, label, operation, operand, remark):
    """The same line as 64tass (0) or acme (1) writes it."""
    if operation == "GEQU":
        return f"{label} = {operand}\n"
    if operation == "DS":
        operation, operand = (".fill", "!fill")[which], operand + ",0"
    elif operation == "DC":
        operation, operand = CONSTANTS[operand][which].split(" ", 1)
    elif operation in ("START", "ENTRY", "END"):
        operation = ""
    return f"{label:<9}{operation:<6}{operand.lstrip('>'):<16} {remark and '; ' + remark}".rstrip() + "\n"


MACROS = """         MACRO
&LAB     PUTW  &V,&ADR
         AIF   &V=0,.ZERO
&LAB     LDA   #&V
         STA   &ADR
         AGO   .DONE
.ZERO    ANOP
&LAB     STZ   &ADR
.DONE    ANOP
         MEND
         MACRO
&LAB     ROW   &N,&BASE,&STEP
         LCLA  &I
         LCLA  &X
&LAB     ANOP
&I       SETA  0
&X       SETA  &BASE
.TOP     AIF   &I=&N,.OUT
         DC    I1'&X'
&X       SETA  &X+&STEP
&I       SETA  &I+1
         AGO   .TOP
.OUT     ANOP
         MEND
         MACRO
&LAB     SAVE  &N,&ADR
         LCLA  &I
&LAB     ANOP
         AIF   &N>2,.MANY
         PUTW  &N,&ADR
         MEXIT
.MANY    ANOP
&I       SETA  0
.LOOP    ANOP
         STX   &ADR+&I
&I       SETA  &I+2
         AIF   &I<2*&N,.LOOP
         MEND
         MACRO
&LAB     CALL  &TO,&KIND
         AIF   '&KIND'='far',.FAR
&LAB     JSR   &TO
         MEXIT
.FAR     ANOP
&LAB     JSL   &TO
         MEND
"""


def macro_call(draw, place):
    label = f"L{place}" if draw.random() < 0.2 else ""
    which = draw.randrange(8)
    if which < 3:
        value = draw.randrange(65536) if draw.random() < 0.7 else 0
        text = f"PUTW  {value},{2 * draw.randrange(120) + 2}"
    elif which < 5:
        text = f"ROW   {2 + draw.randrange(4)},{draw.randrange(100)},{draw.randrange(20)}"
    elif which < 7:
        text = f"SAVE  {1 + draw.randrange(4)},{2 * draw.randrange(100) + 2}"
    else:
        text = f"CALL  S{60 * draw.randrange(place // 60 + 1)},{draw.choice(['near', 'far'])}"
    return f"{label:<9}{text}\n"


def macro_calls(calls):
    draw = random.Random(1)
    lines = []
    for place in range(calls):
        if place % 60 == 0:
            lines.append(f"S{place}     START\n")
        lines.append(macro_call(draw, place))
        if place % 60 == 59 or place == calls - 1:
            lines.append("         END\n")
    return "".join(lines)
