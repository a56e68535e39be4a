; A maze of strokes, each / or \ by the next bit of a random number. The numbers are those of a shift register of 16 bits:
; the same ones at each run, and 65,535 before they come again.
COUT EQU $FDED
SEED EQU $06      ; two bytes, not both 0
ROWS EQU $08
 ORG $300
 LDA #$19
 STA SEED
 LDA #$79
 STA SEED+1
 LDA #23          ; with the last cell of row 24 the screen would scroll
 STA ROWS
NEXT LDX #40
CELL LSR SEED+1   ; 16 bits to the right,
 ROR SEED         ; and the last one falls into C
 LDA #"/"
 BCC SHOW
 LDA SEED+1
 EOR #$B4         ; where it was 1, some bits are turned
 STA SEED+1
 LDA #"\"
SHOW JSR COUT
 DEX
 BNE CELL
 DEC ROWS
 BNE NEXT
 RTS
