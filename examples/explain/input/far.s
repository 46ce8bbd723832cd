* Reads a table in another load segment, and pushes its bank.
FAR      START FARAWAY
         LDY   #0
LOOP     INY
         LDA   TABLE,Y
         BNE   LOOP
         RTL
         END
TABLE    DATA  TABLES
         DC    I1'3,1,4,1,5,0'
         END
