* Three faults: a blank in an operand, a mnemonic of other assemblers, and a label twice.
MAIN     START
         LDX   # 5
LOOP     STZ   TABLE,X
         DEA
         BNE   LOOP
LOOP     RTL
TABLE    DS    6
         END
