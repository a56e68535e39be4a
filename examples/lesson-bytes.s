* THE WORD AT $09 BECOMES THE SUM OF THE BYTES AT $06, $07 AND $08, BY A SUBROUTINE.
        ORG     $06
        DFB     200,100,50
        ORG     $300
;: ensures word $09 = old $06 + old $07 + old $08
;: changes A, $09..$0A
SUM
        LDA     #0
        STA     $0A
        LDA     $06
        STA     $09
        LDA     $07
        JSR     ADD
        LDA     $08
        JSR     ADD
        RTS
ADD     CLC
        ADC     $09
        STA     $09
        BCC     DONE
        INC     $0A
DONE    RTS
