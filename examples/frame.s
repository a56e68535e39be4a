; A title in a frame of inverse blanks. COUT puts the long sides; the short ones are stored in the screen, at the address that
; VTAB leaves for the row in CV. With --attr, rows after the picture say how each character is shown:
; ./a2 run examples/frame.s --attr
COUT EQU $FDED
HOME EQU $FC58
VTAB EQU $FC22    ; after a store to CV: a real COUT finds its row by BASL
SETINV EQU $FE80  ; changes Y on a real Apple II, as SETNORM does
SETNORM EQU $FE84
CH EQU $24
CV EQU $25
BASL EQU $28      ; two bytes: the address of the row's first cell
LEFT EQU 10
RIGHT EQU 29
TOP EQU 4
BOTTOM EQU 8
BLANK EQU " "-$80 ; its inverse code
 ORG $300
 JSR HOME
 JSR SETINV       ; what COUT puts from here on is inverse
 LDA #TOP
 JSR SIDE
 LDA #BOTTOM
 JSR SIDE
 LDX #TOP+1
ENDS STX CV
 JSR VTAB
 LDA #BLANK       ; a store goes past INVFLG
 LDY #LEFT
 STA (BASL),Y
 LDY #RIGHT
 STA (BASL),Y
 INX
 CPX #BOTTOM
 BNE ENDS
 JSR SETNORM      ; and normal again
 LDA #6
 STA CV
 JSR VTAB
 LDA #16
 STA CH
 LDX #0
CHAR LDA TITLE,X
 BEQ DONE
 JSR COUT
 INX
 BNE CHAR         ; always: the title is short
DONE RTS
; Puts a side in row A.
SIDE STA CV
 JSR VTAB
 LDA #LEFT
 STA CH
 LDX #RIGHT-LEFT+1
PUT LDA #" "
 JSR COUT
 DEX
 BNE PUT
 RTS
TITLE ASC "A FRAME"
 DFB 0
