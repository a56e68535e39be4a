; A ball goes 100 steps over the screen and leaves a track. It is stored in text page 1, without the Monitor's services.
; The rows of a page do not follow one another in memory, so a table has the address of each.
COLUMN EQU $06    ; where the ball is: the column, and then the row
ROW EQU COLUMN+1
WAY EQU $08       ; the same for its way: 1, or $FF for back
LEFT EQU $0A      ; the steps that are left
CELLS EQU $0B     ; two bytes: the address of the row's first cell
 ORG $300
 LDA #0
 STA COLUMN
 STA ROW
 LDA #1
 STA WAY
 STA WAY+1
 LDA #100
 STA LEFT
STEP LDA #"."
 JSR DRAW         ; where the ball was
 LDX #1           ; 1 is the row, 0 the column
MOVE CLC
 LDA COLUMN,X
 ADC WAY,X
 STA COLUMN,X
 BEQ TURN         ; at the top or the left edge
 CMP LAST,X
 BNE MOVED
TURN LDA WAY,X
 EOR #$FE         ; makes $FF of 1, and 1 of $FF
 STA WAY,X
MOVED DEX
 BPL MOVE
 DEC LEFT
 BNE STEP
 LDA #"O"         ; the ball; the RTS of DRAW ends the run
; Stores A in the cell at ROW and COLUMN.
DRAW PHA
 LDA ROW
 ASL              ; two bytes an address
 TAX
 LDA ROWS,X
 STA CELLS
 LDA ROWS+1,X
 STA CELLS+1
 LDY COLUMN
 PLA
 STA (CELLS),Y
 RTS
LAST DFB 39,23    ; the last column and the last row
ROWS DW $400,$480,$500,$580,$600,$680,$700,$780
 DW $428,$4A8,$528,$5A8,$628,$6A8,$728,$7A8
 DW $450,$4D0,$550,$5D0,$650,$6D0,$750,$7D0
