         MSB   ON
         LST   OFF
* MATH: SUMS AND PRODUCTS OF TWO BYTES
COUT     EQU   $FDED
CROUT    EQU   $FD8E
PRBYTE   EQU   $FDDA
         DSECT
         ORG   $06
NUM1     DS    2
NUM2     DS    2
ANS      DS    2
COUNT    DS    1
         DEND
FIRST    EQU   1234
SECOND   EQU   567
TESTING  EQU   1
         ORG   $4000
MAIN
         LDA   #>FIRST
         STA   NUM1
         LDA   #<FIRST
         STA   NUM1+1
         LDA   #>SECOND
         STA   NUM2
         LDA   #<SECOND
         STA   NUM2+1
         CLC
         LDA   NUM1
         ADC   NUM2
         STA   ANS
         LDA   NUM1+1
         ADC   NUM2+1
         STA   ANS+1
         JSR   SHOW
         INC   ANS
         BNE   I4SKIP
         INC   ANS+1
I4SKIP
         INC   ANS
         BNE   I5SKIP
         INC   ANS+1
I5SKIP
         JSR   SHOW
         DO    TESTING
         LDA   #>19
         STA   NUM1
         LDA   #<19
         STA   NUM1+1
         LDA   #>23
         STA   NUM2
         LDA   #<23
         STA   NUM2+1
         JSR   MULT
         JSR   SHOW
         FIN
         RTS
* MULT: ANS IS THE LOW BYTE OF NUM1 TIMES THAT OF NUM2
MULT     LDA   #0
         STA   ANS
         STA   ANS+1
         LDA   #8
         STA   COUNT
MULTBIT  ASL   ANS
         ROL   ANS+1
         ASL   NUM2
         BCC   MULTNONE
         CLC
         LDA   NUM1
         ADC   ANS
         STA   ANS
         BCC   MULTNONE
         INC   ANS+1
MULTNONE DEC   COUNT
         BNE   MULTBIT
         RTS
SHOW     LDA   ANS+1
         JSR   PRBYTE
         LDA   ANS
         JSR   PRBYTE
         JMP   CROUT
TENS     DW    10000,1000,100,10,1
SUMS     DW    FIRST+SECOND,FIRST-SECOND
         DFB   FIRST/256,SECOND/256
