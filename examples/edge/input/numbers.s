* A library of one number, for programs that find it when they are loaded.
SEVEN    START
         KIND  $8000
         LDA   #7
         RTL
         END
