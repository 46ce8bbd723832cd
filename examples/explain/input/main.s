* Fills a page, and calls what clears it.
MAIN     START
         FILL  PAGE,256
         JSL   CLEAR
         RTL
PAGE     DS    256
         END
