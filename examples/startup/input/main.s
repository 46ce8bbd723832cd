* Starts the tools that it needs, writes a line, shuts them down again and quits.
         KEEP  STARTUP
         MCOPY TOOLS.MACROS
MAIN     START
         KIND  $1000           not in special memory, so not in bank 0
         USING TEXTS
         PHK                   data lie in the bank of the code
         PLB
         _TLSTARTUP
         PUSHWORD #0           room for the user ID
         _MMSTARTUP
         PULLWORD USERID
         _TEXTSTARTUP
         PUSHADR GREETING
         _WRITECSTRING
         _TEXTSHUTDOWN
         PUSHWORD USERID
         _MMSHUTDOWN
         _TLSHUTDOWN
         _QUIT QUITPARM
USERID   DS    2
QUITPARM DC    I2'2',I4'0',I2'0'  two parameters: no program to go on with, no flags
         END
* What it says: a C string, which ends with 0.
TEXTS    DATA
GREETING DC    C'Hello from the IIGS',I1'13,0'
         END
* The direct page and stack that GS/OS gives it, in bank 0.
DPSTACK  DATA  DPSTACK
         KIND  $12
         DS    $400
         END
