* MCOPY comment.mac is a comment, and so are these:
; MCOPY comment.mac
         MCOPY here.mac
 mcopy    macros:TOOLS.MAC    the folder macros, a file in other capitals
LABEL    MCOPY here.mac      once is enough
MAIN     START
         DC    C' MCOPY text.mac'
         MCOPY macros/more.mac
         RTL
         END
