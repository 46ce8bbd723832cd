* Doubles a number.
MAIN     START
         LDA   >NUMBER
         ASL   A
         STA   >NUMBER
         RTL
NUMBER   DC    I'21'
         END
