* Runs what the user chooses: each command lies in a dynamic segment, which is loaded when it is first called.
MAIN     START
         USING CHOICE
         PHB
         PHK
         PLB
NEXT     LDA   CHOSEN
         BEQ   DONE
         DEC   A
         BNE   SECOND
         JSL   ABOUT
         BRA   NEXT
SECOND   JSL   PRINT
         BRA   NEXT
DONE     JSL   GOODBYE
         PLB
         RTL
         END
* What was chosen; every segment may read static data.
CHOICE   DATA
CHOSEN   DS    2
         END
