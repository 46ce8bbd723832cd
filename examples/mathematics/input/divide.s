* A by X, both without sign: the quotient in A, the remainder in X. By 0 the quotient is $FFFF and the remainder A.
DIVIDE   START
         USING NUMBERS
         PHB
         PHK
         PLB
         STA   QUOTIENT
         STX   DIVISOR
         STZ   REST
         LDX   #16
LOOP     JSR   STEP
         DEX
         BNE   LOOP
         LDA   QUOTIENT
         LDX   REST
         PLB
         RTL
         END
* One bit of the quotient: it takes the place of the dividend's highest one.
STEP     PRIVATE
         USING NUMBERS
         ASL   QUOTIENT
         ROL   REST
         LDA   REST
         BCS   TAKE
         CMP   DIVISOR
         BCC   SMALL
TAKE     SBC   DIVISOR
         STA   REST
         INC   QUOTIENT
SMALL    RTS
         END
* What the two work on.
NUMBERS  PRIVDATA
QUOTIENT DS    2
DIVISOR  DS    2
REST     DS    2
         END
