         LST   OFF
* MATH: sums and products of two bytes
COUT     EQU   $FDED
CROUT    EQU   $FD8E
PRBYTE   EQU   $FDDA
         DUM   $06
NUM1     DS    2
NUM2     DS    2
ANS      DS    2
COUNT    DS    1
         DEND
FIRST    =     1234
SECOND   =     567
TESTING  =     1
         ORG   $4000
ADD16    MAC
         CLC
         LDA   ]1
         ADC   ]2
         STA   ]3
         LDA   ]1+1
         ADC   ]2+1
         STA   ]3+1
         <<<
INC16    MAC
         INC   ]1
         BNE   :SKIP
         INC   ]1+1
:SKIP
         <<<
SET16    MAC
         LDA   #<]2
         STA   ]1
         LDA   #>]2
         STA   ]1+1
         <<<
MAIN     >>>   SET16;NUM1;FIRST
         SET16 NUM2;SECOND
         >>>   ADD16;NUM1;NUM2;ANS
         JSR   SHOW
         INC16 ANS
         >>>   INC16;ANS
         JSR   SHOW
         DO    TESTING
         SET16 NUM1;19
         >>>   SET16;NUM2;23
         JSR   MULT
         JSR   SHOW
         FIN
         RTS
* MULT: ANS is the low byte of NUM1 times that of NUM2
MULT     LDA   #0
         STA   ANS
         STA   ANS+1
         LDA   #8
         STA   COUNT
:BIT     ASL   ANS
         ROL   ANS+1
         ASL   NUM2
         BCC   :NONE
         CLC
         LDA   NUM1
         ADC   ANS
         STA   ANS
         BCC   :NONE
         INC   ANS+1
:NONE    DEC   COUNT
         BNE   :BIT
         RTS
SHOW     LDA   ANS+1
         JSR   PRBYTE
         LDA   ANS
         JSR   PRBYTE
         JMP   CROUT
TENS     DA    10000,1000,100,10,1
SUMS     DA    FIRST+SECOND,FIRST-SECOND
         DFB   FIRST/256,SECOND/256
