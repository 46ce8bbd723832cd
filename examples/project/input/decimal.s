* A, which is below 10,000, as four digits in DIGITS.
         MCOPY calls.mac
         MCOPY widths.mac
DECIMAL  START
         USING NUMBER
         ENTER
         LDY   #3              from the last digit to the first
NEXT     LDX   #10
         JSL   DIVIDE
         PHA
         TXA
         BYTES
         ORA   #'0'
         STA   DIGITS,Y
         WORDS
         PLA
         DEY
         BPL   NEXT
         LEAVE
         END
* The digits of the last number, and the end of a line.
NUMBER   DATA
DIGITS   DS    4
         DC    I1'13,0'
         END
