* $08 BECOMES THE LARGER OF THE BYTES AT $06 AND $07.
        ORG     $06
        DFB     12,34
        ORG     $300
;: ensures $08 = max(old $06, old $07)
;: changes A, $08
LARGER
        LDA     $06
        CMP     $07
        BCS     DONE
        LDA     $07
DONE    STA     $08
        RTS
