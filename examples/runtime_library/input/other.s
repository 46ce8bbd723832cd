* Names the greeting other than by a call.
MAIN     START
         LDA   >HELLO
         RTL
         END
