* a sample
MAIN START
 LDA (5),Y
 LDA 1+
 NOP
 END
