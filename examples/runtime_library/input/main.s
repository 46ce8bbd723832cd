* Calls the greeting, and then its end, through the jump table.
MAIN     START
         JSL   HELLO
         JSL   DONE
         JSL   HELLO
         RTL
         END
