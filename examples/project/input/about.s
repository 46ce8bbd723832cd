* Says what was written. It is loaded when it is first called.
         MCOPY calls.mac
         MCOPY tools.mac
ABOUT    START TEXTS
         KIND  $8000
         ENTER
         WRITE TEXT
         LEAVE
TEXT     DC    C'These are squares.',I1'13,0'
         END
