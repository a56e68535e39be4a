         MSB   ON
         LST   OFF
* BANNER: PRINTS THREE LINES IN THE MIDDLE OF THE SCREEN
HOME     EQU   $FC58
COUT     EQU   $FDED
CROUT    EQU   $FD8E
VTAB     EQU   $FC22
CH       EQU   $24
CV       EQU   $25
PTR      EQU   $06
COUNT    EQU   $08
WIDTH    EQU   40
BORDER   EQU   1
         ORG   $0800
START    JSR   HOME
         LDA   #10
         STA   CV
         JSR   VTAB
         DO    BORDER
         JSR   LINE
         FIN
         LDA   #>LINE1
         STA   PTR
         LDA   #<LINE1
         STA   PTR+1
         JSR   SHOW
         LDA   #>LINE2
         STA   PTR
         LDA   #<LINE2
         STA   PTR+1
         JSR   SHOW
         LDA   #>LINE3
         STA   PTR
         LDA   #<LINE3
         STA   PTR+1
         JSR   SHOW
         DO    BORDER
         JSR   LINE
         FIN
         RTS
* SHOW CENTRES THE TEXT AT PTR, WHICH ENDS WITH 0
SHOW     LDY   #0               FIND ITS LENGTH
SHOWCOUNT LDA   (PTR),Y
         BEQ   SHOWFOUND
         INY
         BNE   SHOWCOUNT
SHOWFOUND STY   COUNT
         LDA   #WIDTH
         SEC
         SBC   COUNT
         LSR
         STA   CH
         LDY   #0
SHOWNEXT LDA   (PTR),Y
         BEQ   SHOWDONE
         JSR   COUT
         INY
         BNE   SHOWNEXT
SHOWDONE JMP   CROUT
* LINE DRAWS A LINE OF STARS
LINE     LDX   #WIDTH
         LDA   #0
         STA   CH
         LDA   #$AA
LINEAGAIN JSR   COUT
         DEX
         BNE   LINEAGAIN
         RTS
LINE1    ASC   "GREETINGS FROM 1983"
         DFB   0
LINE2    ASC   "THE DISK IS FULL OF GAMES"
         DFB   0
LINE3    ASC   "PRESS ANY KEY"
         DFB   0
