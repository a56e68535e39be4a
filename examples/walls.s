; A ball flies over the lo-res picture and asks SCRN before each step what is there: on black it goes on, at the green floor
; and ceiling it turns, and at any other colour it stops. That colour and the column are shown in the text below.
PLOT EQU $F800    ; the block of row A, column Y
HLINE EQU $F819   ; row A from column Y to the one in H2
VLINE EQU $F828   ; column Y from row A to the one in V2
CLRSCR EQU $F832
SETCOL EQU $F864
SCRN EQU $F871    ; A becomes the colour of the block of row A, column Y
HOME EQU $FC58
COUT EQU $FDED
PRHEX EQU $FDE3   ; shows the low digit of A
PRBYTE EQU $FDDA
H2 EQU $2C
V2 EQU $2D
WNDTOP EQU $22
GRAPHICS EQU $C050
MIXED EQU $C053
LORES EQU $C056
ROW EQU $06
COLUMN EQU $07
WAY EQU $08       ; 1 down, $FF up
GREEN EQU 4
 ORG $300
 LDA GRAPHICS     ; any access sets a switch
 LDA MIXED
 LDA LORES
 JSR CLRSCR
 LDA #20          ; HOME clears only the four rows of text
 STA WNDTOP
 JSR HOME
 LDA #GREEN
 JSR SETCOL
 LDA #39
 STA H2
 LDY #0
 LDA #0           ; the ceiling
 JSR HLINE
 LDY #0
 LDA #13          ; the floor
 JSR HLINE
 LDA #11          ; a pink wall
 JSR SETCOL
 LDA #12
 STA V2
 LDY #32
 LDA #1
 JSR VLINE
 LDA #15          ; a white ball
 JSR SETCOL
 LDA #5
 STA ROW
 LDA #0
 STA COLUMN
 LDA #1
 STA WAY
FLY LDY COLUMN
 LDA ROW
 JSR PLOT
LOOK CLC
 LDA ROW
 ADC WAY          ; the next row, by way of $FF the one above
 INY
 JSR SCRN
 DEY              ; SCRN keeps Y
 CMP #GREEN
 BEQ TURN
 CMP #0
 BNE STOP
 CLC
 LDA ROW
 ADC WAY
 STA ROW
 INC COLUMN
 JMP FLY
TURN LDA WAY
 EOR #$FE         ; makes $FF of 1, and 1 of $FF
 STA WAY
 JMP LOOK
STOP JSR PRHEX    ; A is the colour still: CMP keeps it
 LDA #" "
 JSR COUT
 LDA COLUMN
 JMP PRBYTE
