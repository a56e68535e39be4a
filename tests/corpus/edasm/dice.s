         MSB   ON
         LST   OFF
* DICE: THROWS TWO DICE FOR EACH KEY, UNTIL Q
COUT     EQU   $FDED
CROUT    EQU   $FD8E
RDKEY    EQU   $FD0C
RNDL     EQU   $4E
RNDH     EQU   $4F
POINTS   EQU   $06
THROWS   EQU   $07
SIDES    EQU   6
QUIT     EQU   $D1
         ORG   $0C00
DICE     LDA   #0
         STA   THROWS
DICETURN
         LDX   #ASK-TEXTS
         JSR   PUTS
         JSR   RDKEY
         CMP   #QUIT
         BEQ   DICEEND
         INC   THROWS
         JSR   THROW
         STA   POINTS
         JSR   THROW
         CLC
         ADC   POINTS
         STA   POINTS
         LDX   #RESULT-TEXTS
         JSR   PUTS
         LDA   POINTS
         JSR   DIGITS
         JSR   CROUT
         JMP   DICETURN
DICEEND
         LDX   #BYE-TEXTS
         JSR   PUTS
         RTS
* THROW RETURNS 1 TO 6 IN A
THROW    LDA   RNDL
         ASL
         ASL
         CLC
         ADC   RNDL
         CLC
         ADC   #17
         STA   RNDL
         EOR   RNDH
         AND   #7
         BEQ   THROW
         CMP   #SIDES+1
         BCS   THROW
         RTS
* DIGITS PRINTS A IN DECIMAL, BELOW 100
DIGITS   LDX   #0
DIGITSTENS CMP   #10
         BCC   DIGITSONES
         SBC   #10
         INX
         BNE   DIGITSTENS
DIGITSONES PHA
         TXA
         BEQ   DIGITSONE
         ORA   #$B0
         JSR   COUT
DIGITSONE PLA
         ORA   #$B0
         JMP   COUT
PUTS     LDA   TEXTS,X
         BEQ   PUTSDONE
         JSR   COUT
         INX
         BNE   PUTS
PUTSDONE RTS
TEXTS    DFB   0
ASK      ASC   "PRESS A KEY, OR Q: "
         DFB   0
RESULT   ASC   " YOU THROW "
         DFB   0
BYE      DFB   $8D
         ASC   "GOODBYE"
         DFB   $8D,0
