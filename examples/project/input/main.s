* Writes the squares of 1 to 9, a line each, and then what they are, which a dynamic segment says.
         MCOPY calls.mac
         MCOPY tools.mac
MAIN     START
         USING NUMBER
         ENTER
         LDA   #1
NEXT     STA   ROOT
         TAX
         JSL   MULTIPLY
         JSL   DECIMAL
         WRITE DIGITS
         LDA   ROOT
         INC   A
         CMP   #10
         BCC   NEXT
         JSL   ABOUT
         LEAVE
ROOT     DS    2
         END
