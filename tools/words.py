"""The words of sources and scripts, for the tools that are installed without the definitions. tools/manuals makes them from these."""

# The mnemonics, each with its modes as docs/ASSEMBLER.md names them.
# made: words of sources
MODES = {
    "ADC": "# d d,x a a,x a,y al al,x (d) (d),y (d,x) [d] [d],y d,s (d,s),y",
    "AND": "# d d,x a a,x a,y al al,x (d) (d),y (d,x) [d] [d],y d,s (d,s),y",
    "ASL": "A d d,x a a,x",
    "BCC": "r",
    "BCS": "r",
    "BEQ": "r",
    "BGE": "r",
    "BIT": "# d d,x a a,x",
    "BLT": "r",
    "BMI": "r",
    "BNE": "r",
    "BPL": "r",
    "BRA": "r",
    "BRK": "sig",
    "BRL": "rl",
    "BVC": "r",
    "BVS": "r",
    "CLC": "i",
    "CLD": "i",
    "CLI": "i",
    "CLV": "i",
    "CMP": "# d d,x a a,x a,y al al,x (d) (d),y (d,x) [d] [d],y d,s (d,s),y",
    "COP": "sig",
    "CPX": "# d a",
    "CPY": "# d a",
    "DEC": "A d d,x a a,x",
    "DEX": "i",
    "DEY": "i",
    "EOR": "# d d,x a a,x a,y al al,x (d) (d),y (d,x) [d] [d],y d,s (d,s),y",
    "INC": "A d d,x a a,x",
    "INX": "i",
    "INY": "i",
    "JML": "al [a]",
    "JMP": "a (a) (a,x)",
    "JSL": "al",
    "JSR": "a (a,x)",
    "LDA": "# d d,x a a,x a,y al al,x (d) (d),y (d,x) [d] [d],y d,s (d,s),y",
    "LDX": "# d d,y a a,y",
    "LDY": "# d d,x a a,x",
    "LSR": "A d d,x a a,x",
    "MVN": "xyc",
    "MVP": "xyc",
    "NOP": "i",
    "ORA": "# d d,x a a,x a,y al al,x (d) (d),y (d,x) [d] [d],y d,s (d,s),y",
    "PEA": "a",
    "PEI": "(d)",
    "PER": "rl",
    "PHA": "i",
    "PHB": "i",
    "PHD": "i",
    "PHK": "i",
    "PHP": "i",
    "PHX": "i",
    "PHY": "i",
    "PLA": "i",
    "PLB": "i",
    "PLD": "i",
    "PLP": "i",
    "PLX": "i",
    "PLY": "i",
    "REP": "#",
    "ROL": "A d d,x a a,x",
    "ROR": "A d d,x a a,x",
    "RTI": "i",
    "RTL": "i",
    "RTS": "i",
    "SBC": "# d d,x a a,x a,y al al,x (d) (d),y (d,x) [d] [d],y d,s (d,s),y",
    "SEC": "i",
    "SED": "i",
    "SEI": "i",
    "SEP": "#",
    "STA": "d d,x a a,x a,y al al,x (d) (d),y (d,x) [d] [d],y d,s (d,s),y",
    "STP": "i",
    "STX": "d d,y a",
    "STY": "d d,x a",
    "STZ": "d d,x a a,x",
    "TAX": "i",
    "TAY": "i",
    "TCD": "i",
    "TCS": "i",
    "TDC": "i",
    "TRB": "d a",
    "TSB": "d a",
    "TSC": "i",
    "TSX": "i",
    "TXA": "i",
    "TXS": "i",
    "TXY": "i",
    "TYA": "i",
    "TYX": "i",
    "WAI": "i",
    "WDM": "sig",
    "XBA": "i",
    "XCE": "i",
}
DIRECTIVES = """
START PRIVATE DATA PRIVDATA END ENTRY USING EQU GEQU DC DS ALIGN ORG KIND LONGA LONGI MSB ANOP
""".split()
IGNORED = """
KEEP MCOPY LIST GEN SYMBOL EXPAND TITLE EJECT PRINTER ABSADDR 65816
""".split()
STATEMENTS = """
LCLA LCLB LCLC GBLA GBLB GBLC SETA SETB SETC AMID AIF AGO ACTR MEXIT MEND MNOTE MACRO
""".split()
WITHOUT_OPERAND = """
CLC CLD CLI CLV DEX DEY INX INY NOP PHA PHB PHD PHK PHP PHX PHY PLA PLB PLD PLP PLX PLY RTI RTL RTS SEC SED SEI STP TAX TAY TCD TCS TDC TSC
TSX TXA TXS TXY TYA TYX WAI XBA XCE END ENTRY ANOP MACRO MEND MEXIT
""".split()
WITH_OPTIONAL_OPERAND = """
ASL BRK COP DEC INC LSR ROL ROR WDM
""".split()
# end

# The commands of scripts, each with its form.
# made: words of scripts
SCRIPT_FORMS = {
    "banks": "banks B B ..",
    "load": "load PATH",
    "loadseg": "loadseg U S",
    "unloadseg": "unloadseg U S",
    "jsl": "jsl U S OFF",
    "shutdown": "shutdown U keep",
    "restart": "restart U",
    "purge": "purge U",
    "poke": "poke U S OFF BYTE",
    "bytes": "bytes U S OFF LEN",
    "where": "where ADDR",
    "info": "info U S",
    "alloc": "alloc SIZE ATTR ADDR",
    "free": "free H",
    "lock": "lock H",
    "unlock": "unlock H",
    "handle": "handle H",
    "level": "level H N",
    "room": "room",
    "compact": "compact",
}
# end
