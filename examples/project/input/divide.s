* A by X, both without sign: the quotient in A, the remainder in X.
         MCOPY calls.mac
DIVIDE   START
         ENTER
         STA   QUOTIENT
         STX   DIVISOR
         STZ   REST
         LDX   #16
LOOP     ASL   QUOTIENT
         ROL   REST
         LDA   REST
         BCS   TAKE
         CMP   DIVISOR
         BCC   SMALL
TAKE     SBC   DIVISOR
         STA   REST
         INC   QUOTIENT
SMALL    DEX
         BNE   LOOP
         LDA   QUOTIENT
         LDX   REST
         LEAVE
QUOTIENT DS    2
DIVISOR  DS    2
REST     DS    2
         END
