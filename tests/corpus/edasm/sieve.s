         MSB   ON
         LST   OFF
* SIEVE: PRIME NUMBERS BELOW 256, ONE FLAG A BYTE
COUT     EQU   $FDED
CROUT    EQU   $FD8E
PRBYTE   EQU   $FDDA
FLAGS    EQU   $1000
FACTOR   EQU   $08
INDEX    EQU   $09
LIMIT    EQU   16
         ORG   $0300
SIEVE    LDX   #0
         LDA   #1
SIEVEFILL STA   FLAGS,X
         INX
         BNE   SIEVEFILL
         LDA   #2
         STA   FACTOR
NEXTF    LDX   FACTOR
         LDA   FLAGS,X
         BEQ   NEXTFSKIP
         TXA
         ASL
         BCS   NEXTFSKIP
NEXTFCROSS TAX
         LDA   #0
         STA   FLAGS,X
         TXA
         CLC
         ADC   FACTOR
         BCC   NEXTFCROSS
NEXTFSKIP INC   FACTOR
         LDA   FACTOR
         CMP   #LIMIT
         BCC   NEXTF
PRINT    LDA   #2
         STA   INDEX
PRINTNEXT LDX   INDEX
         LDA   FLAGS,X
         BEQ   PRINTNOT
         TXA
         JSR   PRBYTE
         LDA   #$A0
         JSR   COUT
PRINTNOT INC   INDEX
         BNE   PRINTNEXT
         JSR   CROUT
         RTS
NAME     ASC   "SIEVE"
         DFB   $8D,0
VERSION  DW    $0102,LIMIT*LIMIT
ENTRY    DW    SIEVE,NEXTF,PRINT
POWERS   DFB   1,2,4,8
         DFB   16,32,64,128
MASKS    DFB   LIMIT-1,LIMIT+LIMIT
