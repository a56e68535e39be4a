* Services: what a routine that prints promises of registers and other bytes.
        ORG $300
;: requires $20 = 0 and $21 = 40 and $22 = 0 and $23 = 24 and $24 < 40 and $25 < 24
;: requires word $36 = #$FDF0
;: ensures  A = old $06 and $24 < 40 and $25 < 24
;: changes  A, $24..$25, $28..$29, $0400..$07FF
PUT     LDA $06
        JSR $FDED
        RTS

* a loop that prints; window and hook are as they were
;: requires $21 >= 1 and $20 + $21 <= 40 and $22 < $23 <= 24 and $20 + $24 < 40 and $25 < 24
;: requires word $36 = #$FDF0 and X >= 1
;: ensures  A = 141 and X = 0 and $21 = old $21
;: changes  A, X, $24..$25, $28..$29, $0400..$07FF
STARS   LDA #"*"
;: invariant 1 <= X and $20 + $24 < 40 and $25 < 24
;: decreases X
SLOOP   JSR $FDED
        DEX
        BNE SLOOP
        JSR $FD8E
        RTS

* a sum is shown as two digits on a screen that is cleared
;: requires $21 >= 1 and $20 + $21 <= 40 and $22 < $23 <= 24
;: ensures  $08 = (old $06 + old $07) % 256 and A = $08
;: changes  A, $08, $24..$25, $28..$29, $0400..$07FF
SUM     JSR $FC58
        CLC
        LDA $06
        ADC $07
        STA $08
        JSR $FDDA
        RTS

* a text up to its 0, of at most 255 characters
;: requires $20 = 0 and $21 = 40 and $22 = 0 and $23 = 24 and $24 < 40 and $25 < 24
;: requires [#$20FF] = 0
;: ensures  [#$2000 + X] = 0 and $06 = old $06
;: ensures  for all i < X: [#$2000 + i] <> 0
;: changes  A, X, $24..$25, $28..$29, $0400..$07FF
TEXT    LDX #0
;: invariant $24 < 40 and $25 < 24
;: invariant for all i < X: [#$2000 + i] <> 0
;: decreases 255 - X
TLOOP   LDA $2000,X
        BEQ TDONE
        JSR $FDF0
        INX
        BNE TLOOP
TDONE   RTS

* a digit, behind which the row is cleared
;: requires $21 >= 1 and $20 + $21 <= 40 and $22 < $23 <= 24 and $20 + $24 < 40 and $25 < 24
;: ensures  A = old A and $20 + $24 < 40 and $32 = old $32
;: changes  $24..$25, $28..$29, $0400..$07FF
DIGIT   JSR $FDE3
        JSR $FC9C
        RTS

* the base address of another row, and no byte of the screen
;: requires $21 >= 1 and $20 + $21 <= 40 and $22 < $23 <= 24 and $20 + $24 < 40 and $06 < 24
;: ensures  $25 = $06 and A = $25 and $0400 = old $0400
;: changes  A, $25, $28..$29
ROW     LDA $06
        STA $25
        JSR $FC22
        RTS

* the mask of characters, with a pause
;: ensures  A = 0 and X = old X and $06 = 63 and $32 = 255
;: changes  A, $06, $32
MASKS   JSR $FE80
        LDA $32
        STA $06
        JSR $FCA8
        JSR $FE84
        RTS
