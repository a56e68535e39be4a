* Branches and flags.
        ORG $300
;: ensures $08 = min($06, $07)
;: changes A, $08
MIN     LDA $06
        CMP $07
        BCC DONE
        LDA $07
DONE    STA $08
        RTS

;: ensures A = max(old $06, old $07)
;: changes A
MAX     LDA $06
        CMP $07
        BCS MAXED
        LDA $07
MAXED   RTS

;: ensures if old A < 128 then A = old A else A + old A = 256
;: changes A
ABS     CMP #0
        BPL RET
        EOR #$FF
        CLC
        ADC #1
RET     RTS

;: ensures if old A < #48 then A = 0 else if old A <= 57 then A = old A - 48 else A = 255
;: changes A
DIGIT   CMP #48
        BCC LESS
        CMP #58
        BCS MORE
        SBC #47
        RTS
LESS    LDA #0
        RTS
MORE    LDA #255
        RTS

;: ensures if old A >= 97 and old A <= 122 then A = old A - 32 else A = old A
;: changes A
UPPER   CMP #97
        BCC UOK
        CMP #123
        BCS UOK
        AND #$DF
UOK     RTS

;: ensures if old A = 5 or old A = 6 then A = 1 else A = 0
;: changes A
EITHER  CMP #5
        BEQ YES
        CMP #6
        BEQ YES
        LDA #0
        RTS
YES     LDA #1
        RTS

;: ensures C iff not old C
;: ensures if C then A = 1 else A = 0
;: changes A
FLIP    BCC SET
        CLC
        LDA #0
        RTS
SET     SEC
        LDA #1
        RTS

;: ensures C iff word $06 >= word $08
;: ensures word $06 = old word $06
;: changes A
CMP16   LDA $06
        CMP $08
        LDA $07
        SBC $09
        RTS

;: ensures Z iff $06 = $07
;: changes A
EQUAL   LDA $06
        CMP $07
        RTS

;: ensures 20 <= A <= 100 and (20 <= old A <= 100 and A = old A or old A < 20 and A = 20 or old A > 100 and A = 100)
;: changes A
CLAMP   CMP #20
        BCS NOTLOW
        LDA #20
NOTLOW  CMP #101
        BCC NOTHIGH
        LDA #100
NOTHIGH RTS
