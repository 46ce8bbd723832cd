* A program of one byte.
MAIN     START
         RTL
         END
