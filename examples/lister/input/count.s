* Copies three numbers, the last one first, and calls what follows.
         ALIGN 256
COUNT    START MAIN
FIRST    EQU   4
         REP   #$20
         SEP   #$10
         LONGI OFF
         LDX   #FIRST
AGAIN    ENTRY
         LDA   |TABLE,X
         STA   >OTHER+6
         DEX
         BNE   AGAIN
         JSL   DONE
         RTL
DONE     ENTRY
         DC    A2'(TABLE-AGAIN)/2'
         DC    R'EXTRA'
         DC    S'MAYBE'
         DS    3
         END
TABLE    DATA
         KIND  $4001
         DC    A4'COUNT',A4'DONE'
         DS    2
         END
