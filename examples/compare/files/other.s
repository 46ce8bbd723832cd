* A routine of a run-time library file.
OTHER    START EXTRAS
         KIND  $8000
         RTL
         END
