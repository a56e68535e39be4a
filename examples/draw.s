; A drawing in blocks: I, J, K and M move the pen up, left, right and down, 0 to 9 and A to F are its colours, RETURN ends.
; ./a2lab play examples/draw.s
HOME EQU $FC58
COUT EQU $FDED
RDKEY EQU $FD0C
PLOT EQU $F800
CLRSCR EQU $F832
SETCOL EQU $F864
GRAPHICS EQU $C050
MIXED EQU $C053
LORES EQU $C056
WNDTOP EQU $22
PENX EQU $06      ; the pen: its column and its row
PENY EQU $07
PEN EQU $08       ; its colour
 ORG $300
 LDA GRAPHICS
 LDA MIXED
 LDA LORES
 JSR CLRSCR
 LDA #20          ; text has the four rows below the picture
 STA WNDTOP
 JSR HOME
 LDX #0
LETTER LDA TEXT,X
 BEQ BEGIN
 JSR COUT
 INX
 BNE LETTER       ; always: the text is short
BEGIN LDA #20
 STA PENX
 STA PENY
 LDA #15          ; white
 STA PEN
DRAW LDA PEN
 JSR SETCOL
 LDY PENX
 LDA PENY
 JSR PLOT
 JSR RDKEY
 CMP #$8D         ; RETURN
 BEQ DONE
 CMP #"I"
 BEQ UP
 CMP #"J"
 BEQ LEFT
 CMP #"K"
 BEQ RIGHT
 CMP #"M"
 BEQ DOWN
 CMP #"0"
 BCC DRAW
 CMP #"9"+1
 BCC DIGIT
 CMP #"A"
 BCC DRAW
 CMP #"F"+1
 BCS DRAW
 ADC #9           ; A is 10: its low four bits are 1
DIGIT AND #$0F
 STA PEN
 JMP DRAW
UP LDA PENY
 BEQ DRAW         ; the topmost row
 DEC PENY
 BPL DRAW         ; always
DOWN LDA PENY
 CMP #39          ; the lowest
 BEQ DRAW
 INC PENY
 BPL DRAW         ; always
LEFT LDA PENX
 BEQ DRAW
 DEC PENX
 BPL DRAW         ; always
RIGHT LDA PENX
 CMP #39
 BEQ DRAW
 INC PENX
 BPL DRAW         ; always
DONE RTS
TEXT ASC "I J K M MOVE, 0-9 A-F COLOUR, RETURN"
 DFB 0
