* Arrays: stores and loads by an index, or through a pointer, that is not known.
        ORG $300
;: ensures for all i < 256: [#$2000 + i] = 0
;: changes A, X, $2000..$20FF
CLEAR   LDA #0
        TAX
;: invariant A = 0
;: invariant for all i < X: [#$2000 + i] = 0
;: decreases 255 - X
CLOOP   STA $2000,X
        INX
        BNE CLOOP
        RTS

;: requires X >= 1
;: ensures  for all i < old X: [#$2000 + i] = A
;: changes  X, $2000..$20FE
FILL    NOP
;: invariant A = old A and 1 <= X <= old X
;: invariant for all i < old X: if i >= X then [#$2000 + i] = A
;: decreases X
FLOOP   STA $1FFF,X
        DEX
        BNE FLOOP
        RTS

;: ensures for all i < old X: [#$2100 + i] = old [#$2000 + i]
;: ensures for all i < 256: [#$2000 + i] = old [#$2000 + i]
;: changes A, X, $2100..$21FE
COPY    CPX #0
        BEQ CDONE
;: invariant 1 <= X <= old X
;: invariant for all i < old X: if i >= X then [#$2100 + i] = [#$2000 + i]
;: decreases X
COPYING LDA $1FFF,X
        STA $20FF,X
        DEX
        BNE COPYING
CDONE   RTS

* the length of a text through a pointer
;: requires word $06 = #$2000 and [#$20FF] = 0
;: ensures  [#$2000 + Y] = 0
;: ensures  for all i < Y: [#$2000 + i] <> 0
;: changes  A, Y
LENGTH  LDY #0
;: invariant word $06 = #$2000 and [#$20FF] = 0
;: invariant for all i < Y: [#$2000 + i] <> 0
;: decreases 255 - Y
LLOOP   LDA ($06),Y
        BEQ LDONE
        INY
        BNE LLOOP
LDONE   RTS

* the greatest goes to the end
;: ensures for all i < 16: [#$2000 + i] <= [#$200F]
;: changes A, X, $2000..$200F
PASS    LDX #0
;: invariant X < 15
;: invariant for all i < X: [#$2000 + i] <= [#$2000 + X]
;: decreases 15 - X
PLOOP   LDA $2000,X
        CMP $2001,X
        BCC PNEXT
        PHA
        LDA $2001,X
        STA $2000,X
        PLA
        STA $2001,X
PNEXT   INX
        CPX #15
        BNE PLOOP
        RTS

;: ensures for all i < 16: [#$2000 + i] = (old [#$2000 + i] + 1) % 256
;: changes X, $2000..$200F
MORE    LDX #0
;: invariant X < 16
;: invariant for all i < X: [#$2000 + i] = (old [#$2000 + i] + 1) % 256
;: invariant for all i < 16: if i >= X then [#$2000 + i] = old [#$2000 + i]
;: decreases 16 - X
MLOOP   INC $2000,X
        INX
        CPX #16
        BNE MLOOP
        RTS
