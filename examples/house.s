; A house in lo-res, by the Monitor's lines and single blocks. A real Apple II shows colours where here their numbers are.
; There all of these may change A, and CLRSCR and HLINE Y too; X stays.
PLOT EQU $F800    ; the block of row A, column Y
HLINE EQU $F819   ; row A from column Y to the one in H2
VLINE EQU $F828   ; column Y from row A to the one in V2
CLRSCR EQU $F832
SETCOL EQU $F864  ; the colour of all blocks from here on
H2 EQU $2C
V2 EQU $2D
GRAPHICS EQU $C050
FULL EQU $C052
LORES EQU $C056
 ORG $300
 LDA GRAPHICS     ; any access sets a switch
 LDA FULL
 LDA LORES
 JSR CLRSCR
 LDA #1           ; a magenta roof: ten rows, each two blocks longer than the one above
 JSR SETCOL
 LDX #0
ROOF TXA
 CLC
 ADC #20
 STA H2           ; to column 20 + X,
 LDA #39
 SEC
 SBC H2
 TAY              ; from column 19 - X
 TXA
 CLC
 ADC #6
 JSR HLINE
 INX
 CPX #10
 BNE ROOF
 LDA #9           ; an orange wall; H2 is the roof's last end
 JSR SETCOL
 LDX #16
WALL TXA
 LDY #10
 JSR HLINE
 INX
 CPX #30
 BNE WALL
 LDA #8           ; a brown door: four columns down to the wall's last row
 JSR SETCOL
 LDA #29
 STA V2
 LDY #13
DOOR LDA #21
 JSR VLINE        ; Y stays
 INY
 CPY #17
 BNE DOOR
 LDA #12          ; green grass, over the whole width
 JSR SETCOL
 LDA #39
 STA H2
 LDY #0
 LDA #30
 JSR HLINE
 LDA #13          ; yellow lights: single blocks, their places in two tables
 JSR SETCOL
 LDX #LIGHTS-COLUMNS-1
LIGHT LDY COLUMNS,X
 LDA ROWS,X
 JSR PLOT
 DEX
 BPL LIGHT
 RTS
COLUMNS DFB 22,24,22,24,35,34,36,35
LIGHTS            ; after the table
ROWS DFB 20,20,22,22,2,3,3,4
