; runs into the middle of an instruction, by the byte of BIT
 ORG $300
 LDA #1
 DFB $2C
 LDA #2
 RTS
