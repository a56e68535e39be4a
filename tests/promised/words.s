;: ensures word $0A = (old word $06 + old word $08) % 65536
;: ensures C iff old word $06 + old word $08 >= 65536
;: changes A, $0A..$0B
ADD16   CLC
        LDA $06
        ADC $08
        STA $0A
        LDA $07
        ADC $09
        STA $0B
        RTS

;: ensures word $08 = old $06 * old $07
;: changes A, X, $08, $09
MUL     LDA #0
        STA $08
        STA $09
        LDX $06
        BEQ DONE
;: invariant word $08 + X * old $07 = old $06 * old $07
;: decreases X
LOOP    CLC
        LDA $08
        ADC $07
        STA $08
        BCC NEXT
        INC $09
NEXT    DEX
        BNE LOOP
DONE    RTS

;: ensures word $0C = (old word $06 + old word $08) % 65536
;: changes A, $0A..$0D
SUM     JSR ADD16
        LDA $0A
        STA $0C
        LDA $0B
        STA $0D
        RTS

;: ensures A = old $06 + old $07
;: changes A
WRAPS   LDA $06
        CLC
        ADC $07
        RTS
