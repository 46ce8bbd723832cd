MAIN     START
         PUTW  7,$1000
ZERO     PUTW  0,$1002
         RTS
         END
