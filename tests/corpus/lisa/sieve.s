; SIEVE: prime numbers below 256, one flag a byte
COUT     EQU   $FDED
CROUT    EQU   $FD8E
PRBYTE   EQU   $FDDA
FLAGS    EQU   $1000
FACTOR   EPZ   $08
INDEX    EPZ   $09
LIMIT    EQU   16
         ORG   $0300
SIEVE    LDX   #0
         LDA   #1
SIEVEFILL STA   FLAGS,X
         INX
         BNE   SIEVEFILL
         LDA   #2
         STA   FACTOR
NEXTF    LDX   FACTOR
         LDA   FLAGS,X
         BEQ   NEXTFSKIP
         TXA
         ASL
         BCS   NEXTFSKIP
NEXTFCROSS TAX
         LDA   #0
         STA   FLAGS,X
         TXA
         CLC
         ADC   FACTOR
         BCC   NEXTFCROSS
NEXTFSKIP INC   FACTOR
         LDA   FACTOR
         CMP   #LIMIT
         BCC   NEXTF
PRINT    LDA   #2
         STA   INDEX
PRINTNEXT LDX   INDEX
         LDA   FLAGS,X
         BEQ   PRINTNOT
         TXA
         JSR   PRBYTE
         LDA   #" "
         JSR   COUT
PRINTNOT INC   INDEX
         BNE   PRINTNEXT
         JSR   CROUT
         RTS
NAME     ASC   "SIEVE"
         BYT   $8D,0
VERSION  ADR   $0102,LIMIT*LIMIT
ENTRY    ADR   SIEVE,NEXTF,PRINT
POWERS   BYT   1,2,4,8
         BYT   16,32,64,128
MASKS    BYT   LIMIT-1,LIMIT+LIMIT
         END
