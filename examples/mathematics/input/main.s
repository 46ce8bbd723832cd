* Six times seven, and a fifth of it.
MAIN     START
         LDA   #6
         LDX   #7
         JSL   MULTIPLY
         STA   >PRODUCT
         LDX   #5
         JSL   DIVIDE
         STA   >FIFTH
         RTL
PRODUCT  DS    2
FIFTH    DS    2
         END
