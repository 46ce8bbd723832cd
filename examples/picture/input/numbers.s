* Another one, of two segments: the number is doubled, or halved.
DOUBLE   START DOUBLING
         KIND  $8000
         ASL   A
         RTL
         END
HALVE    START HALVING
         KIND  $8000
         LSR   A
         RTL
         END
