         ALIGN $100
MAIN     START CODE
         KIND  $5000
         RTL
         DS    5
         END
