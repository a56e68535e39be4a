; Lines that scroll in a window of 11 columns and 5 rows; the dots around it stay.
COUT EQU $FDED
CROUT EQU $FD8E
HOME EQU $FC58
PRBYTE EQU $FDDA
WNDLFT EQU $20    ; four bytes: left edge, width, top row, the row after the last
CV EQU $25        ; the cursor's row
LINE EQU $06
 ORG $300
 JSR HOME
 LDX #9           ; nine rows of dots
DOTS LDY #40
DOT LDA #"."
 JSR COUT         ; after the 40th the cursor goes to the next row
 DEY
 BNE DOT
 DEX
 BNE DOTS
 LDX #INSIDE-SIZES
 JSR RESIZE
 JSR HOME         ; clears only the window, and puts the cursor at its top left
 LDA #1
 STA LINE
NEXT LDX #0
CHAR LDA TEXT,X
 BEQ NUMBER
 JSR COUT
 INX
 BNE CHAR         ; always: INX never gives 0 here
NUMBER LDA LINE
 JSR PRBYTE
 JSR CROUT        ; from the last row the window scrolls
 INC LINE
 LDA LINE
 CMP #9
 BNE NEXT
 LDX #WHOLE-SIZES ; leaves the whole screen, with the cursor in row 10
 JSR RESIZE
 LDA #9
 STA CV
 JMP CROUT
; Makes the window that of the four bytes X after SIZES.
RESIZE LDY #0
EDGE LDA SIZES,X
 STA WNDLFT,Y
 INX
 INY
 CPY #4
 BNE EDGE
 RTS
SIZES
INSIDE DFB 14,11,2,7
WHOLE DFB 0,40,0,24
TEXT ASC " LINE "
 DFB 0
