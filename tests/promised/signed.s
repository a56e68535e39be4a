* Signed numbers: V, and comparisons by it.
        ORG $300
;: ensures V iff old A < 128 and old $10 < 128 and old A + old $10 > 127 or old A >= 128 and old $10 >= 128 and old A + old $10 < 384
;: changes A
OVF     CLC
        ADC $10
        RTS

;: ensures C iff (old A + 128) % 256 < (old $10 + 128) % 256
;: changes A
LESS    SEC
        SBC $10
        BVC L1
        EOR #$80
L1      ASL
        RTS

;: ensures if old A < 128 and old $10 < 128 and old A + old $10 > 127 then A = 127 else A = (old A + old $10) % 256
;: requires A < 128 and $10 < 128
;: changes A
MOST    CLC
        ADC $10
        BVC M1
        LDA #127
M1      RTS

;: ensures C iff signed old A < signed old $10
;: changes A
SIGNED  SEC
        SBC $10
        BVC S1
        EOR #$80
S1      ASL
        RTS

;: ensures if V then signed old A + signed old $10 < -128 or signed old A + signed old $10 > 127 else signed A = signed old A + signed old $10
;: changes A
SUM     CLC
        ADC $10
        RTS

;: requires signed A > -128
;: ensures  signed A = 0 - signed old A
;: changes  A
MINUS   JSR INVERT
        CLC
        ADC #1
        RTS

;: ensures signed A = -1 - signed old A
;: changes A
INVERT  EOR #$FF
        RTS

;: ensures if signed old A < 0 then A = 1 else A = 0
;: changes A
NEGATIVE CMP #0
        BMI YES
        LDA #0
        RTS
YES     LDA #1
        RTS
