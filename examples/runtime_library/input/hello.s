* A run-time library file: a dynamic segment that greets, and its greeting.
HELLO    START LIBSEG
         KIND  $8000
         LDX   #0
AGAIN    LDA   >GREETING,X
         BEQ   DONE
         INX
         BRA   AGAIN
DONE     ENTRY
         RTL
GREETING ANOP
         DC    C'hello',H'00'
         END
