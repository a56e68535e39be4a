* THE WORD AT $0A BECOMES THE SUM OF THE WORDS AT $06 AND $08, AND C ITS CARRY.
        ORG     $06
        DW      1000,2000
        ORG     $300
;: ensures word $0A = (old word $06 + old word $08) % 65536
;: ensures C iff old word $06 + old word $08 > 65535
;: changes A, $0A..$0B
SUM
        CLC
        LDA     $06
        ADC     $08
        STA     $0A
        LDA     $07
        ADC     $09
        STA     $0B
        RTS
