; A lo-res pattern: in even rows of blocks the colours go up from 0, column by column, in odd rows down from 15.
; A byte of the page is two blocks: its low four bits above, its high four below.
GRAPHICS EQU $C050
FULL EQU $C052
LORES EQU $C056
CELLS EQU $06     ; two bytes: the address of the next 120 cells
ABOVE EQU $08     ; the colour of the block above
LEFT EQU $09      ; how often 120 cells are left
 ORG $300
 LDA GRAPHICS     ; any access sets a switch
 LDA FULL
 LDA LORES
 LDA #<$400
 STA CELLS
 LDA #>$400
 STA CELLS+1
 LDA #8           ; the page is eight times 128 bytes: 120 cells, which are three rows, and eight bytes shown nowhere
 STA LEFT
NEXT LDY #0
NEXTROW LDX #0    ; the column
CELL TXA
 AND #$0F
 STA ABOVE
 EOR #$0F         ; 15 less the colour above
 ASL
 ASL
 ASL
 ASL
 ORA ABOVE
 STA (CELLS),Y
 INY
 INX
 CPX #40
 BNE CELL
 CPY #120
 BNE NEXTROW
 CLC
 LDA CELLS
 ADC #128
 STA CELLS
 BCC LATER
 INC CELLS+1
LATER DEC LEFT
 BNE NEXT
 RTS
