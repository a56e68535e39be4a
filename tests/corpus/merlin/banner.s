         LST   OFF
* BANNER: prints three lines in the middle of the screen
HOME     EQU   $FC58
COUT     EQU   $FDED
CROUT    EQU   $FD8E
VTAB     EQU   $FC22
CH       EQU   $24
CV       EQU   $25
PTR      EQU   $06
COUNT    EQU   $08
WIDTH    =     40
BORDER   =     1
         ORG   $0800
PRINT    MAC
         LDA   #<]1
         STA   PTR
         LDA   #>]1
         STA   PTR+1
         JSR   SHOW
         <<<
START    JSR   HOME
         LDA   #10
         STA   CV
         JSR   VTAB
         DO    BORDER
         JSR   LINE
         FIN
         >>>   PRINT;LINE1
         PRINT LINE2
         >>>   PRINT;LINE3
         DO    BORDER
         JSR   LINE
         FIN
         RTS
* SHOW centres the text at PTR, which ends with 0
SHOW     LDY   #0               ;find its length
:COUNT   LDA   (PTR),Y
         BEQ   :FOUND
         INY
         BNE   :COUNT
:FOUND   STY   COUNT
         LDA   #WIDTH
         SEC
         SBC   COUNT
         LSR
         STA   CH
         LDY   #0
:NEXT    LDA   (PTR),Y
         BEQ   :DONE
         JSR   COUT
         INY
         BNE   :NEXT
:DONE    JMP   CROUT
* LINE draws a line of stars
LINE     LDX   #WIDTH
         LDA   #0
         STA   CH
         LDA   #"*"
:AGAIN   JSR   COUT
         DEX
         BNE   :AGAIN
         RTS
LINE1    ASC   "GREETINGS FROM 1983"
         DFB   0
LINE2    ASC   "THE DISK IS FULL OF GAMES"
         DFB   0
LINE3    ASC   "PRESS ANY KEY"
         DFB   0
