* THE BYTES AT $06 AND $07 ARE EXCHANGED.
        ORG     $06
        DFB     12,34
        ORG     $300
;: ensures $06 = old $07 and $07 = old $06
;: changes A, X, $06, $07
SWAP
        LDA     $06
        LDX     $07
        STX     $06
        STA     $07
        RTS
