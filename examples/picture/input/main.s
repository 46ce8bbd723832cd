* Greets by one run-time library file, and doubles a number by another.
MAIN     START
         JSL   GREET
         LDA   #21
         JSL   DOUBLE
         RTL
         END
