* A run-time library file: a dynamic segment that walks over its greeting.
GREET    START GREETINGS
         KIND  $8000
         LDX   #0
AGAIN    LDA   >TEXT,X
         BEQ   DONE
         INX
         BRA   AGAIN
DONE     RTL
TEXT     DC    C'hello',H'00'
         END
