* Routines that call others: these are known by their promises alone.
        ORG $300
;: requires $10 + $11 + $12 < 256
;: ensures  $13 = $10 + $11 + $12
;: changes  A, $13
SUM3    LDA $10
        STA $13
        LDA $11
        JSR ADD
        LDA $12
        JSR ADD
        RTS

;: requires A + $13 < 256
;: ensures  $13 = old $13 + old A
;: changes  A, $13
ADD     CLC
        ADC $13
        STA $13
        RTS

;: requires A < 64
;: ensures  A = 4 * old A
;: changes  A
FOUR    JSR TWO
        JSR TWO
        RTS

;: requires A < 128
;: ensures  A = 2 * old A
;: changes  A
TWO     ASL
        RTS

;: ensures A = min(old A, 100)
;: changes A, $07
ATMOST  STA $07
        LDA #100
        JSR LESSER
        RTS

;: ensures A = min(old A, $07)
;: changes A
LESSER  CMP $07
        BCC LDONE
        LDA $07
LDONE   RTS
