; DICE: throws two dice for each key, until Q
COUT     EQU   $FDED
CROUT    EQU   $FD8E
RDKEY    EQU   $FD0C
RNDL     EPZ   $4E
RNDH     EPZ   $4F
POINTS   EPZ   $06
THROWS   EPZ   $07
SIDES    EQU   6
QUIT     EPZ   $D1
         ORG   $0C00
DICE     LDA   #0
         STA   THROWS
DICETURN
         LDX   #ASK-TEXTS
         JSR   PUTS
         JSR   RDKEY
         CMP   #QUIT
         BEQ   DICEEND
         INC   THROWS
         JSR   THROW
         STA   POINTS
         JSR   THROW
         CLC
         ADC   POINTS
         STA   POINTS
         LDX   #RESULT-TEXTS
         JSR   PUTS
         LDA   POINTS
         JSR   DIGITS
         JSR   CROUT
         JMP   DICETURN
DICEEND
         LDX   #BYE-TEXTS
         JSR   PUTS
         RTS
; THROW returns 1 to 6 in A
THROW    LDA   RNDL
         ASL
         ASL
         CLC
         ADC   RNDL
         CLC
         ADC   #17
         STA   RNDL
         EOR   RNDH
         AND   #7
         BEQ   THROW
         CMP   #SIDES+1
         BCS   THROW
         RTS
; DIGITS prints A in decimal, below 100
DIGITS   LDX   #0
DIGITSTENS CMP   #10
         BCC   DIGITSONES
         SBC   #10
         INX
         BNE   DIGITSTENS
DIGITSONES PHA
         TXA
         BEQ   DIGITSONE
         ORA   #"0"
         JSR   COUT
DIGITSONE PLA
         ORA   #"0"
         JMP   COUT
PUTS     LDA   TEXTS,X
         BEQ   PUTSDONE
         JSR   COUT
         INX
         BNE   PUTS
PUTSDONE RTS
TEXTS    BYT   0
ASK      ASC   "PRESS A KEY, OR Q: "
         BYT   0
RESULT   ASC   " YOU THROW "
         BYT   0
BYE      BYT   $8D
         ASC   "GOODBYE"
         BYT   $8D,0
         END
