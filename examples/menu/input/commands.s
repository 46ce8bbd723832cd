* Two commands in one dynamic segment, OTHERS, and a large one in a segment of its own.
ABOUT    START OTHERS
         KIND  $8000
         USING CHOICE
         LDA   #0
         STA   >CHOSEN
         RTL
         END
GOODBYE  START OTHERS
         KIND  $8000
         JSR   BEEP            in the same load segment
         RTL
BEEP     NOP
         RTS
         END
PRINT    START PRINTING
         KIND  $8000
         JSL   ABOUT           from one dynamic segment to another
         RTL
PAGE     DS    $100
         END
