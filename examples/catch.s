; A game: a block falls, and the bar is to be under it. The arrows move the bar; three blocks that are not caught end it.
; ./a2lab play examples/catch.s
HOME EQU $FC58
WAIT EQU $FCA8
COUT EQU $FDED
PRBYTE EQU $FDDA
PLOT EQU $F800
HLINE EQU $F819
CLRSCR EQU $F832
SETCOL EQU $F864
KEYBOARD EQU $C000 ; bit 7 is set while a key waits
STROBE EQU $C010   ; any access takes the key
GRAPHICS EQU $C050
MIXED EQU $C053
LORES EQU $C056
WNDTOP EQU $22
CH EQU $24
H2 EQU $2C
LEFTKEY EQU $88
RIGHTKEY EQU $95
FLOOR EQU 39       ; the bar's row of blocks
WIDTH EQU 5        ; the bar's blocks
COLUMN EQU $06     ; the block: its column and its row
ROW EQU $07
BAR EQU $08        ; the bar's first column
CAUGHT EQU $09     ; how many were caught
LIVES EQU $0A
SEED EQU $0B       ; the last random number
 ORG $300
 LDA GRAPHICS
 LDA MIXED
 LDA LORES
 JSR CLRSCR
 LDA #20           ; text has the four rows below the picture
 STA WNDTOP
 JSR HOME
 LDA #17
 STA BAR
 LDA #3
 STA LIVES
 LDA #0
 STA CAUGHT
 LDA #29
 STA SEED
 JSR SHOWBAR
BLOCK JSR SCORE
 JSR RANDOM
 STA COLUMN
 LDA #0
 STA ROW
FALL LDA #13       ; yellow
 JSR SHOWBLOCK
 LDA #120          ; some 37,000 cycles
 JSR WAIT
 JSR KEY
 LDA #0            ; black
 JSR SHOWBLOCK
 INC ROW
 LDA ROW
 CMP #FLOOR
 BNE FALL
 SEC               ; caught, if it is 0 to 4 columns to the right of the bar's first
 LDA COLUMN
 SBC BAR
 CMP #WIDTH
 BCS MISSED
 INC CAUGHT
 JMP BLOCK
MISSED DEC LIVES
 BNE BLOCK
 JMP SCORE         ; its RTS ends the game
; Moves the bar by one block, if an arrow waits.
KEY LDA KEYBOARD
 BPL NOKEY
 BIT STROBE
 CMP #LEFTKEY
 BEQ GOLEFT
 CMP #RIGHTKEY
 BNE NOKEY
 LDA BAR
 CMP #40-WIDTH
 BCS NOKEY
 LDA #0
 JSR COLOURBAR
 INC BAR
 JMP SHOWBAR
GOLEFT LDA BAR
 BEQ NOKEY
 LDA #0
 JSR COLOURBAR
 DEC BAR
; Shows the bar; COLOURBAR does it in the colour in A.
SHOWBAR LDA #6     ; blue
COLOURBAR JSR SETCOL
 CLC
 LDA BAR
 TAY
 ADC #WIDTH-1
 STA H2
 LDA #FLOOR
 JMP HLINE
NOKEY RTS
; Shows the block in the colour in A.
SHOWBLOCK JSR SETCOL
 LDY COLUMN
 LDA ROW
 JMP PLOT
; Leaves a random column, 0 to 39, in A: each seed is five times the last, and 17.
RANDOM LDA SEED
 ASL
 ASL
 CLC
 ADC SEED
 CLC
 ADC #17
 STA SEED
 LSR
 LSR               ; 0 to 63
 CMP #40
 BCS RANDOM
 RTS
; Writes what was caught, in hexadecimal digits, and the lives that are left.
SCORE LDA #0
 STA CH
 LDX #0
LETTER LDA TEXT,X
 BEQ NUMBER
 JSR COUT
 INX
 BNE LETTER
NUMBER LDA CAUGHT
 JSR PRBYTE
 LDA #" "
 JSR COUT
 LDX LIVES
 BEQ NONE
HEART LDA #"*"
 JSR COUT
 DEX
 BNE HEART
NONE LDA #" "      ; over the life that was lost
 JMP COUT
TEXT ASC "CAUGHT $"
 DFB 0
