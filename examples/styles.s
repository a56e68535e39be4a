; Normal, inverse and flashing text. With --attr, rows after the picture say how each character is shown:
; ./a2 run examples/styles.s --attr
COUT EQU $FDED
CROUT EQU $FD8E
INVFLG EQU $32    ; COUT ANDs characters with this byte
 ORG $300
 LDX #NORMAL-TEXT
 LDA #$FF
 JSR PRINT
 LDX #INVERSE-TEXT
 LDA #$3F
 JSR PRINT
 LDX #FLASHING-TEXT
 LDA #$7F         ; letters flash; with this mask blanks, digits and most signs become inverse
 JSR PRINT
 LDA #$FF         ; leaves the mask as it was
 STA INVFLG
 RTS
; Shows the text X bytes after TEXT, which ends by 0, with the mask A, and a return.
PRINT STA INVFLG
NEXT LDA TEXT,X
 BEQ END
 JSR COUT
 INX
 BNE NEXT         ; always: the texts are short
END JMP CROUT
TEXT
NORMAL ASC "NORMAL"
 DFB 0
INVERSE ASC "INVERSE 1"
 DFB 0
FLASHING ASC "FLASHING 1"
 DFB 0
