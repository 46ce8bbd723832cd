* A times X: the low 16 bits of the product, in A.
MULTIPLY START
         USING FACTORS
         PHB
         PHK
         PLB
         STA   TERM
         STX   FACTOR
         STZ   SUM
LOOP     JSR   STEP
         LDA   FACTOR
         BNE   LOOP
         LDA   SUM
         PLB
         RTL
         END
* Adds the term where the factor's low bit is 1, and goes on to the next bit.
STEP     PRIVATE
         USING FACTORS
         LSR   FACTOR
         BCC   EVEN
         CLC
         LDA   SUM
         ADC   TERM
         STA   SUM
EVEN     ASL   TERM
         RTS
         END
* What the two work on.
FACTORS  PRIVDATA
TERM     DS    2
FACTOR   DS    2
SUM      DS    2
         END
