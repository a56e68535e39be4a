; BANNER: prints three lines in the middle of the screen
HOME     EQU   $FC58
COUT     EQU   $FDED
CROUT    EQU   $FD8E
VTAB     EQU   $FC22
CH       EPZ   $24
CV       EPZ   $25
PTR      EPZ   $06
COUNT    EPZ   $08
WIDTH    EQU   40
BORDER   EQU   1
         ORG   $0800
START    JSR   HOME
         LDA   #10
         STA   CV
         JSR   VTAB
         .IF   BORDER
         JSR   LINE
         .FI
         LDA   #LINE1
         STA   PTR
         LDA   /LINE1
         STA   PTR+1
         JSR   SHOW
         LDA   #LINE2
         STA   PTR
         LDA   /LINE2
         STA   PTR+1
         JSR   SHOW
         LDA   #LINE3
         STA   PTR
         LDA   /LINE3
         STA   PTR+1
         JSR   SHOW
         .IF   BORDER
         JSR   LINE
         .FI
         RTS
; SHOW centres the text at PTR, which ends with 0
SHOW     LDY   #0               ; find its length
SHOWCOUNT LDA   (PTR),Y
         BEQ   SHOWFOUND
         INY
         BNE   SHOWCOUNT
SHOWFOUND STY   COUNT
         LDA   #WIDTH
         SEC
         SBC   COUNT
         LSR
         STA   CH
         LDY   #0
SHOWNEXT LDA   (PTR),Y
         BEQ   SHOWDONE
         JSR   COUT
         INY
         BNE   SHOWNEXT
SHOWDONE JMP   CROUT
; LINE draws a line of stars
LINE     LDX   #WIDTH
         LDA   #0
         STA   CH
         LDA   #"*"
LINEAGAIN JSR   COUT
         DEX
         BNE   LINEAGAIN
         RTS
LINE1    ASC   "GREETINGS FROM 1983"
         BYT   0
LINE2    ASC   "THE DISK IS FULL OF GAMES"
         BYT   0
LINE3    ASC   "PRESS ANY KEY"
         BYT   0
         END
