* A program of 18,432 bytes.
MAIN     START
         RTL
         DS    $47FF
         END
