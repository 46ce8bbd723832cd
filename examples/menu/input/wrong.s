* Reads a byte of a dynamic segment, which may not be there.
WRONG    START
         LDA   >PRINT
         RTL
         END
