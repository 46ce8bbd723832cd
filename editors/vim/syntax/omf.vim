" Vim syntax file
" Language: 65816 source of the assembler omf, in the manner of ORCA/M

if exists('b:current_syntax')
  finish
endif

" A line is a label, an operation and an operand; what follows these is a comment. Each field says what may be the next.
syntax case ignore
syntax sync minlines=1

syntax match omfComment "^[*;!].*$" contains=@Spell,omfTodo
syntax match omfLabel "^[^ \t*;!][^ \t]*" nextgroup=omfGap contains=omfSymbol
syntax match omfSequence "^\.[a-z_~][a-z0-9_~]*" nextgroup=omfGap
syntax match omfGap "[ \t]\+" contained nextgroup=@omfOperation
syntax match omfNoLabel "^[ \t]\+" nextgroup=@omfOperation

" Whatever is no other operation calls a macro.
syntax match omfCall "[^ \t]\+" contained nextgroup=omfBeforeOperand contains=omfSymbol

" made: words of vim
syntax keyword omfImplied contained nextgroup=omfTail CLC CLD CLI CLV DEX DEY INX INY NOP PHA PHB PHD PHK PHP PHX PHY PLA PLB PLD PLP PLX
syntax keyword omfImplied contained nextgroup=omfTail PLY RTI RTL RTS SEC SED SEI STP TAX TAY TCD TCS TDC TSC TSX TXA TXS TXY TYA TYX WAI
syntax keyword omfImplied contained nextgroup=omfTail XBA XCE
syntax keyword omfOptional contained nextgroup=omfSemicolon,omfBeforeOperand ASL BRK COP DEC INC LSR ROL ROR WDM
syntax keyword omfMnemonic contained nextgroup=omfBeforeOperand ADC AND BCC BCS BEQ BGE BIT BLT BMI BNE BPL BRA BRL BVC BVS CMP CPX CPY EOR
syntax keyword omfMnemonic contained nextgroup=omfBeforeOperand JML JMP JSL JSR LDA LDX LDY MVN MVP ORA PEA PEI PER REP SBC SEP STA STX STY
syntax keyword omfMnemonic contained nextgroup=omfBeforeOperand STZ TRB TSB
syntax keyword omfDirectiveAlone contained nextgroup=omfTail END ENTRY ANOP
syntax keyword omfDirective contained nextgroup=omfBeforeOperand START PRIVATE DATA PRIVDATA USING EQU GEQU DC DS ALIGN ORG KIND LONGA LONGI
syntax keyword omfDirective contained nextgroup=omfBeforeOperand MSB
syntax keyword omfIgnored contained nextgroup=omfBeforeOperand KEEP MCOPY LIST GEN SYMBOL EXPAND TITLE EJECT PRINTER ABSADDR 65816
syntax keyword omfStatementAlone contained nextgroup=omfTail MEXIT MEND MACRO
syntax keyword omfStatement contained nextgroup=omfBeforeOperand LCLA LCLB LCLC GBLA GBLB GBLC SETA SETB SETC AMID AIF AGO ACTR MNOTE
" end

syntax cluster omfOperation contains=omfCall,omfImplied,omfOptional,omfMnemonic,omfDirectiveAlone,omfDirective,omfIgnored,omfStatementAlone,omfStatement

syntax match omfBeforeOperand "[ \t]\+" contained nextgroup=omfOperand
syntax match omfOperand +\%('[^']*\%('\|$\)\|"[^"]*\%("\|$\)\|[^ \t'"]\)\++ contained nextgroup=omfTail contains=omfString,omfSymbol,omfSequenceUse,omfNumber,omfName,omfType,omfOperator
syntax match omfTail "[ \t].*$" contained contains=@Spell,omfTodo
syntax match omfSemicolon "[ \t]\+;.*$" contained contains=@Spell,omfTodo
syntax keyword omfTodo TODO FIXME XXX contained

syntax match omfOperator "[-+*/|<>=#^!]" contained
syntax match omfOperator "\.\%(NOT\|AND\|OR\|EOR\)\." contained
syntax match omfName "[a-z_~][a-z0-9_~]*" contained
syntax match omfSequenceUse "[a-z0-9_~]\@1<!\.[a-z_~][a-z0-9_~]*\.\@!" contained
syntax match omfNumber "\<\d\+\>" contained
syntax match omfNumber "\$\x\+" contained
syntax match omfNumber "%[01]\+" contained
syntax match omfNumber "@\o\+" contained
syntax match omfType "\d*\%([ia][1-4]\?\|[hbcrs]\)'\@=" contained
syntax match omfSymbol "&[a-z_~][a-z0-9_~]*\.\?" contained
syntax region omfString start=+'+ end=+'\|$+ oneline contained contains=omfSymbol
syntax region omfString start=+"+ end=+"\|$+ oneline contained contains=omfSymbol

highlight default link omfComment Comment
highlight default link omfTail Comment
highlight default link omfSemicolon Comment
highlight default link omfTodo Todo
highlight default link omfLabel Identifier
highlight default link omfSequence Label
highlight default link omfSequenceUse Label
highlight default link omfCall Function
highlight default link omfImplied Statement
highlight default link omfOptional Statement
highlight default link omfMnemonic Statement
highlight default link omfDirectiveAlone Type
highlight default link omfDirective Type
highlight default link omfIgnored Type
highlight default link omfStatementAlone PreProc
highlight default link omfStatement PreProc
highlight default link omfSymbol Special
highlight default link omfType Type
highlight default link omfNumber Number
highlight default link omfString String
highlight default link omfOperator Operator

let b:current_syntax = 'omf'
