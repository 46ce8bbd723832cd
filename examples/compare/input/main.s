* Counts, and shows the count by a routine in a dynamic segment.
MAIN     START
         LDA   >COUNT
         CLC
         ADC   #5
         STA   >COUNT
         JSL   SHOW
         RTL
COUNT    ENTRY
         DS    2
LAST     ENTRY
         DS    2
         END
SHOW     START SHOWS
         KIND  $8000
         LDA   >COUNT
         RTL
MORE     ENTRY
         LDA   >LAST
         RTL
         END
