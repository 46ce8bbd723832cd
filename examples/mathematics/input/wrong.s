* Calls what is private to the library's files.
WRONG    START
         JSR   STEP
         RTL
         END
