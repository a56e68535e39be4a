         LST   OFF
* DICE: throws two dice for each key, until Q
COUT     EQU   $FDED
CROUT    EQU   $FD8E
RDKEY    EQU   $FD0C
RNDL     EQU   $4E
RNDH     EQU   $4F
POINTS   EQU   $06
THROWS   EQU   $07
SIDES    =     6
QUIT     EQU   $D1
         ORG   $0C00
SAY      MAC
         LDX   #]1-TEXTS
         JSR   PUTS
         <<<
DICE     LDA   #0
         STA   THROWS
:TURN    >>>   SAY;ASK
         JSR   RDKEY
         CMP   #QUIT
         BEQ   :END
         INC   THROWS
         JSR   THROW
         STA   POINTS
         JSR   THROW
         CLC
         ADC   POINTS
         STA   POINTS
         SAY   RESULT
         LDA   POINTS
         JSR   DIGITS
         JSR   CROUT
         JMP   :TURN
:END     >>>   SAY;BYE
         RTS
* THROW returns 1 to 6 in A
THROW    LDA   RNDL
         ASL
         ASL
         CLC
         ADC   RNDL
         CLC
         ADC   #17
         STA   RNDL
         EOR   RNDH
         AND   #7
         BEQ   THROW
         CMP   #SIDES+1
         BCS   THROW
         RTS
* DIGITS prints A in decimal, below 100
DIGITS   LDX   #0
:TENS    CMP   #10
         BCC   :ONES
         SBC   #10
         INX
         BNE   :TENS
:ONES    PHA
         TXA
         BEQ   :ONE
         ORA   #"0"
         JSR   COUT
:ONE     PLA
         ORA   #"0"
         JMP   COUT
PUTS     LDA   TEXTS,X
         BEQ   :DONE
         JSR   COUT
         INX
         BNE   PUTS
:DONE    RTS
TEXTS    DFB   0
ASK      ASC   "PRESS A KEY, OR Q: "
         DFB   0
RESULT   ASC   " YOU THROW "
         DFB   0
BYE      DFB   $8D
         ASC   "GOODBYE"
         DFB   $8D,0
