         LST   OFF
* SIEVE: prime numbers below 256, one flag a byte
COUT     EQU   $FDED
CROUT    EQU   $FD8E
PRBYTE   EQU   $FDDA
FLAGS    EQU   $1000
FACTOR   EQU   $08
INDEX    EQU   $09
LIMIT    =     16
         ORG   $0300
SIEVE    LDX   #0
         LDA   #1
:FILL    STA   FLAGS,X
         INX
         BNE   :FILL
         LDA   #2
         STA   FACTOR
NEXTF    LDX   FACTOR
         LDA   FLAGS,X
         BEQ   :SKIP
         TXA
         ASL
         BCS   :SKIP
:CROSS   TAX
         LDA   #0
         STA   FLAGS,X
         TXA
         CLC
         ADC   FACTOR
         BCC   :CROSS
:SKIP    INC   FACTOR
         LDA   FACTOR
         CMP   #LIMIT
         BCC   NEXTF
PRINT    LDA   #2
         STA   INDEX
:NEXT    LDX   INDEX
         LDA   FLAGS,X
         BEQ   :NOT
         TXA
         JSR   PRBYTE
         LDA   #" "
         JSR   COUT
:NOT     INC   INDEX
         BNE   :NEXT
         JSR   CROUT
         RTS
NAME     ASC   "SIEVE"
         DFB   $8D,0
VERSION  DA    $0102,LIMIT*LIMIT
ENTRY    DA    SIEVE,NEXTF,PRINT
POWERS   DFB   1,2,4,8
         DFB   16,32,64,128
MASKS    DFB   LIMIT-1,LIMIT+LIMIT
