; A bar chart in the mixed picture: 20 rows of lo-res cells, and below them four rows of text.
COUT EQU $FDED
HOME EQU $FC58
WNDTOP EQU $22    ; the first row that COUT and HOME use
GRAPHICS EQU $C050
MIXED EQU $C053
LORES EQU $C056
CELLS EQU $06     ; two bytes: the address of a row's first cell
BAR EQU $08
 ORG $300
 LDX #38          ; twice the last row of the picture
CLEAR LDY #39
 LDA #0           ; two black blocks
 JSR FILL
 DEX
 DEX
 BPL CLEAR
 LDA #0
 STA BAR
NEXT LDY BAR
 LDX PLACES,Y
 LDA COLOURS,Y
 PHA
 LDA ENDS,Y
 TAY
 PLA
 JSR FILL
 INC BAR
 LDA BAR
 CMP #5
 BNE NEXT
 LDA #20          ; HOME clears only the four rows of text
 STA WNDTOP
 JSR HOME
 LDA GRAPHICS     ; any access sets a switch
 LDA MIXED
 LDA LORES
 LDX #0
CHAR LDA TEXT,X
 BEQ DONE
 JSR COUT
 INX
 BNE CHAR         ; always: the text is short
DONE RTS
; Stores A in the cells from column Y down to column 0 of the row X/2.
FILL PHA
 LDA ROWS,X
 STA CELLS
 LDA ROWS+1,X
 STA CELLS+1
 PLA
CELL STA (CELLS),Y
 DEY
 BPL CELL
 RTS
PLACES DFB 4,12,20,28,36    ; twice the rows of the bars
ENDS DFB 4,12,20,28,36      ; their last columns
COLOURS DFB $11,$33,$66,$99,$DD
ROWS DW $400,$480,$500,$580,$600,$680,$700,$780
 DW $428,$4A8,$528,$5A8,$628,$6A8,$728,$7A8
 DW $450,$4D0,$550,$5D0
TEXT ASC "BARS OF 5, 13, 21, 29 AND 37 CELLS"
 DFB 0
