* THE WORD AT $08 BECOMES THE PRODUCT OF THE BYTES AT $06 AND $07.
        ORG     $06
        DFB     12,34
        ORG     $300
;: ensures word $08 = old $06 * old $07
;: changes A, X, $08..$09
PRODUCT
        LDA     #0
        STA     $08
        STA     $09
        LDX     $06
;: invariant word $08 + X * $07 = old $06 * $07 and (Z iff X = 0)
;: decreases X
LOOP    BEQ     DONE
        CLC
        LDA     $08
        ADC     $07
        STA     $08
        LDA     $09
        ADC     #0
        STA     $09
        DEX
        JMP     LOOP
DONE    RTS
