* A times X: the low 16 bits of the product, in A.
         MCOPY calls.mac
MULTIPLY START
         ENTER
         STA   TERM
         STX   FACTOR
         STZ   SUM
LOOP     LSR   FACTOR
         BCC   EVEN
         CLC
         LDA   SUM
         ADC   TERM
         STA   SUM
EVEN     ASL   TERM
         LDA   FACTOR
         BNE   LOOP
         LDA   SUM
         LEAVE
TERM     DS    2
FACTOR   DS    2
SUM      DS    2
         END
