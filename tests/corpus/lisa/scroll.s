; SCROLL: moves a text through a row of the screen
HOME     EQU   $FC58
WAIT     EQU   $FCA8
KEY      EQU   $C000
STROBE   EQU   $C010
ROW      EQU   $0400+$28
FIRST    EQU   ROW
LAST     EQU   ROW+39
SPEED    EQU   60
AT       EPZ   $06
         ORG   $6000
START    JSR   HOME
         LDA   #0
         STA   AT
LOOP     JSR   SHIFT
         LDX   AT
         LDA   MESSAGE,X
         BNE   LOOPSHOW
         LDX   #0
         STX   AT
         LDA   MESSAGE
LOOPSHOW STA   LAST
         INC   AT
         LDA   #SPEED
         JSR   WAIT
         LDA   KEY
         BPL   LOOP
         STA   STROBE
         RTS
; SHIFT moves the row one place to the left
SHIFT    LDX   #0
SHIFTNEXT LDA   FIRST+1,X
         STA   FIRST,X
         INX
         CPX   #39
         BNE   SHIFTNEXT
         RTS
; SWAP exchanges the ends of the row
SWAP
         LDA   FIRST
         STA   AT+1
         LDA   LAST
         STA   FIRST
         LDA   AT+1
         STA   LAST
         LDA   #SPEED*2
         JSR   WAIT
         RTS
PAUSE
         NOP
         NOP
         NOP
         NOP
         NOP
         RTS
MESSAGE  ASC   "THIS TEXT MOVES FROM RIGHT TO LEFT, "
         ASC   "UNTIL YOU PRESS A KEY ... "
         BYT   0
ROWS     ADR   $0400,$0480,$0500,$0580
         ADR   $0600,$0680,$0700,$0780
         ADR   $0428,$04A8,$0528,$05A8
         END
