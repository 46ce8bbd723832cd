* A routine of a run-time library file.
EXTRA    START EXTRAS
         KIND  $8000
         RTL
         END
