* More of arrays: through a pointer, in page 0, by a call; loops within loops; and few numbers, each for itself.
        ORG $300
;: requires word $06 = #$2000
;: ensures  for all i < old Y: [#$2000 + i] = A
;: changes  Y, $2000..$20FE
FILLP   CPY #0
        BEQ FPDONE
;: invariant word $06 = #$2000 and 1 <= Y <= old Y
;: invariant for all i < old Y: if i >= Y then [#$2000 + i] = A
;: decreases Y
FPLOOP  DEY
        STA ($06),Y
        CPY #0
        BNE FPLOOP
FPDONE  RTS

;: requires X <= 16
;: ensures  for all i < old X: [#$30 + i] = 0
;: changes  A, X, $30..$3F
ZERO    LDA #0
        CPX #0
        BEQ ZDONE
;: invariant A = 0 and 1 <= X <= old X and old X <= 16
;: invariant for all i < old X: if i >= X then [#$30 + i] = 0
;: decreases X
ZLOOP   DEX
        STA $30,X
        CPX #0
        BNE ZLOOP
ZDONE   RTS

;: requires X >= 1
;: ensures  for all i < old X: [#$2000 + i] = A
;: changes  X, $2000..$20FE
FILL    NOP
;: invariant A = old A and 1 <= X <= old X
;: invariant for all i < old X: if i >= X then [#$2000 + i] = A
;: decreases X
FLOOP   STA $1FFF,X
        DEX
        BNE FLOOP
        RTS

;: ensures for all i < 9: [#$2000 + i] = 7
;: ensures $08 = 5
;: changes A, X, $08, $2000..$20FE
SEVENS  LDA #5
        STA $08
        LDA #7
        LDX #9
        JSR FILL
        RTS

;: requires Y >= 1
;: ensures  $08 = old Y
;: changes  X, Y, $08
NEST    LDX #0
        STX $08
;: invariant 1 <= Y
;: invariant $08 + Y = old Y
;: decreases Y
OUTER   LDX #3
;: invariant X >= 1
;: invariant Y = at OUTER Y and $08 = at OUTER $08
;: decreases X
INNER   DEX
        BNE INNER
        INC $08
        DEY
        BNE OUTER
        RTS

;: ensures for all i < 4: [#$30 + i] = old [#$20 + i]
;: ensures sum i < 4: [#$30 + i] = sum i < 4: old [#$20 + i]
;: ensures abs($30 - $31) = abs(old $20 - old $21)
;: changes A, X, $30..$33
COPY4   LDX #3
CLOOP   LDA $20,X
        STA $30,X
        DEX
        BPL CLOOP
        RTS

;: requires for all i < 4: [#$20 + i] < 50
;: ensures  A = sum i < 4: [#$20 + i]
;: changes  A, X
SUM4    LDX #3
        LDA #0
        CLC
SLOOP   ADC $20,X
        DEX
        BPL SLOOP
        RTS

* from the last byte to the first
;: ensures for all i < 16: [#$2000 + i] = old [#$200F - i]
;: changes A, X, Y, $2000..$200F
REVERSE LDX #0
        LDY #15
;: invariant X + Y = 15 and X < 8
;: invariant for all i < X: [#$2000 + i] = old [#$200F - i]
;: invariant for all i < X: [#$200F - i] = old [#$2000 + i]
;: invariant for all i < 16: if X <= i and i <= Y then [#$2000 + i] = old [#$2000 + i]
;: decreases Y
RLOOP   LDA $2000,X
        PHA
        LDA $2000,Y
        STA $2000,X
        PLA
        STA $2000,Y
        INX
        DEY
        CPX #8
        BNE RLOOP
        RTS

* of two names that are one the inner one is meant
;: ensures for all i < 3: for all i < 2: i < 2
TWICE   RTS

;: requires for all i < 300: [#$2000 + i] < 7
;: ensures  A < 7
;: changes  A
LOW     LDA $2000,X
        RTS
