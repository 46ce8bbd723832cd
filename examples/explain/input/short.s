SHORT    START
         RTL
AGAIN    BRA   AGAIN
         END
