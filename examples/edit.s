; A text editor of one line, by GETLN. A line that is typed becomes the text; +MORE is added after it, - takes its last character
; away, /AB makes each A a B, and RETURN alone ends.
; ./a2lab play examples/edit.s
HOME EQU $FC58
COUT EQU $FDED
CROUT EQU $FD8E
GETLN EQU $FD6A
PROMPT EQU $33
IN EQU $0200      ; where GETLN leaves a line, and in X its length
MOST EQU 38       ; the most characters of the text
LENGTH EQU $06    ; how many it has
TYPED EQU $07     ; how many were typed
 ORG $300
 LDA #">"
 STA PROMPT
 LDA #0
 STA LENGTH
 JSR HOME
SHOW LDX LENGTH
 BEQ ASK          ; there is nothing to show
 LDX #0
LETTER LDA TEXT,X
 JSR COUT
 INX
 CPX LENGTH
 BNE LETTER
 JSR CROUT
ASK JSR GETLN
 STX TYPED
 CPX #0
 BEQ DONE
 LDA IN
 CMP #"+"
 BEQ APPEND
 CMP #"-"
 BEQ SHORTEN
 CMP #"/"
 BEQ CHANGE
 LDX #0           ; all that was typed is the text
 STX LENGTH
 BEQ TAKE         ; always
APPEND LDX #1     ; what is after the +
TAKE CPX TYPED
 BEQ SHOW
 LDY LENGTH
 CPY #MOST
 BEQ SHOW         ; there is no room
 LDA IN,X
 STA TEXT,Y
 INC LENGTH
 INX
 BNE TAKE         ; always
SHORTEN LDA LENGTH
 BEQ SHOW
 DEC LENGTH
 JMP SHOW
CHANGE CPX #3
 BNE SHOW         ; a letter and its new one are wanted
 LDY #0
NEXT CPY LENGTH
 BEQ SHOW
 LDA TEXT,Y
 CMP IN+1
 BNE SAME
 LDA IN+2
 STA TEXT,Y
SAME INY
 BNE NEXT         ; always
DONE RTS
TEXT DS MOST
