* Loops, by invariants or by their counts.
        ORG $300
;: ensures word $08 = old $06 * old $07
;: changes A, X, $08, $09
MUL     LDA #0
        STA $08
        STA $09
        LDX $06
        BEQ DONE
;: invariant word $08 + X * old $07 = old $06 * old $07
;: invariant 1 <= X
;: decreases X
LOOP    CLC
        LDA $08
        ADC $07
        STA $08
        BCC NEXT
        INC $09
NEXT    DEX
        BNE LOOP
DONE    RTS

;: requires $07 > 0
;: ensures  old $06 = $08 * old $07 + A and A < old $07
;: changes  A, X, $08
DIV     LDX #0
        LDA $06
;: invariant old $06 = X * $07 + A
;: invariant $07 > 0 and $07 = old $07
;: decreases A
DLOOP   CMP $07
        BCC DDONE
        SBC $07
        INX
        JMP DLOOP
DDONE   STX $08
        RTS

;: requires X > 0
;: ensures  A % 2 = 0
;: changes  A, X
SHL     ASL
;: invariant X > 0 and A % 2 = 0
;: decreases X
SLOOP   DEX
        BEQ SDONE
        ASL
        JMP SLOOP
SDONE   RTS

;: ensures if C then X >= 1 and [#$1FFF + X] = $06 else X = 0
;: changes A, X
FIND    CPX #0
        BEQ NOT
;: invariant X >= 1
;: decreases X
FLOOP   LDA $1FFF,X
        CMP $06
        BEQ FOUND
        DEX
        BNE FLOOP
NOT     CLC
        RTS
FOUND   SEC
        RTS

;: ensures $30 = old $20 and $31 = old $21 and $32 = old $22 and $33 = old $23
;: ensures $34 = old $24 and $35 = old $25 and $36 = old $26 and $37 = old $27
;: changes A, X, $30..$37
COPY    LDX #7
CLOOP   LDA $20,X
        STA $30,X
        DEX
        BPL CLOOP
        RTS

;: requires $20 + $21 + $22 + $23 < 256
;: ensures  A = $20 + $21 + $22 + $23
;: changes  A, X
SUM     LDX #3
        LDA #0
        CLC
ALOOP   ADC $20,X
        DEX
        BPL ALOOP
        RTS

;: ensures [#$2000] = 0 and [#$200F] = 0
;: changes A, X, $2000..$200F
CLR     LDA #0
        LDX #15
ZLOOP   STA $2000,X
        DEX
        BPL ZLOOP
        RTS

;: ensures Y = old Y
;: ensures X = 0
;: changes X
WAIT    CPX #0
        BEQ WDONE
;: invariant X >= 1
;: decreases X
WLOOP   DEX
        BNE WLOOP
WDONE   RTS
