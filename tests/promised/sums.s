* Sums and differences, of bytes and of words.
        ORG $300
;: requires $10 <= 200 and $11 <= 55
;: ensures  A = old $10 + old $11
;: ensures  $12 = A
;: changes  A, $12
ADD     CLC
        LDA $10
        ADC $11
        STA $12
        RTS

;: ensures word $0A = (old word $06 + old word $08) % 65536
;: ensures C iff old word $06 + old word $08 >= 65536
;: changes A, $0A..$0B
ADD16   CLC
        LDA $06
        ADC $08
        STA $0A
        LDA $07
        ADC $09
        STA $0B
        RTS

;: ensures A = (old $10 - old $11) % 256
;: ensures C iff old $10 >= old $11
;: changes A
SUB     SEC
        LDA $10
        SBC $11
        RTS

;: ensures word $0A = (old word $06 - old word $08) % 65536
;: changes A, $0A..$0B
SUB16   SEC
        LDA $06
        SBC $08
        STA $0A
        LDA $07
        SBC $09
        STA $0B
        RTS

;: ensures (A + old A) % 256 = 0
;: changes A
NEG     EOR #$FF
        CLC
        ADC #1
        RTS

;: requires $06 <= 25
;: ensures  A = 10 * old $06
;: changes  A, $07
TEN     LDA $06
        ASL
        STA $07
        ASL
        ASL
        CLC
        ADC $07
        RTS

;: ensures A = (old $10 + old $11) / 2
;: changes A
MEAN    CLC
        LDA $10
        ADC $11
        ROR
        RTS

;: ensures word $06 = 2 * old word $06 % 65536
;: ensures C iff old word $06 >= 32768
;: changes $06, $07
TWICE   ASL $06
        ROL $07
        RTS

;: ensures $06 = old $07 and $07 = old $06
;: changes A, X, $06, $07
SWAP    LDA $06
        LDX $07
        STX $06
        STA $07
        RTS

;: requires $06 < 255
;: ensures  word $06 = old word $06 + 1
;: changes  $06, $07
INC16   INC $06
        BNE I1
        INC $07
I1      RTS

;: ensures word $06 = (old word $06 - 1) % 65536
;: changes A, $06, $07
DEC16   LDA $06
        BNE LOWER
        DEC $07
LOWER   DEC $06
        RTS
