         LST   OFF
* SCROLL: moves a text through a row of the screen
HOME     EQU   $FC58
WAIT     EQU   $FCA8
KEY      EQU   $C000
STROBE   EQU   $C010
ROW      EQU   $0400+$28
FIRST    EQU   ROW
LAST     EQU   ROW+39
SPEED    =     60
AT       EQU   $06
         ORG   $6000
DELAY    MAC
         LDA   #]1
         JSR   WAIT
         <<<
MOVE     MAC
         LDA   ]1
         STA   ]2
         <<<
START    JSR   HOME
         LDA   #0
         STA   AT
LOOP     JSR   SHIFT
         LDX   AT
         LDA   MESSAGE,X
         BNE   :SHOW
         LDX   #0
         STX   AT
         LDA   MESSAGE
:SHOW    STA   LAST
         INC   AT
         >>>   DELAY;SPEED
         LDA   KEY
         BPL   LOOP
         STA   STROBE
         RTS
* SHIFT moves the row one place to the left
SHIFT    LDX   #0
:NEXT    LDA   FIRST+1,X
         STA   FIRST,X
         INX
         CPX   #39
         BNE   :NEXT
         RTS
* SWAP exchanges the ends of the row
SWAP     MOVE  FIRST;AT+1
         >>>   MOVE;LAST;FIRST
         MOVE  AT+1;LAST
         >>>   DELAY;SPEED*2
         RTS
PAUSE
         LUP   5
         NOP
         --^
         RTS
MESSAGE  ASC   "THIS TEXT MOVES FROM RIGHT TO LEFT, "
         ASC   "UNTIL YOU PRESS A KEY ... "
         DFB   0
ROWS     DA    $0400,$0480,$0500,$0580
         DA    $0600,$0680,$0700,$0780
         DA    $0428,$04A8,$0528,$05A8
