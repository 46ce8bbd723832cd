* Minus A, in A.
NEGATE   START
         EOR   #$FFFF
         INC   A
         RTL
         END
