* Bits, by masks and shifts.
        ORG $300
;: ensures A = old A % 16
;: changes A
LOW     AND #$0F
        RTS

;: ensures A = old A / 16
;: changes A
HIGH    LSR
        LSR
        LSR
        LSR
        RTS

;: ensures A = old A & old $10
;: changes A
MASK    AND $10
        RTS

;: ensures A = old A ^ old $10
;: changes A
DIFFER  EOR $10
        RTS

;: ensures A = (old A / 16) + (old A % 16) * 16
;: changes A, $10, $11
NIB     STA $10
        LSR
        LSR
        LSR
        LSR
        STA $11
        LDA $10
        ASL
        ASL
        ASL
        ASL
        ORA $11
        RTS

;: ensures if old A % 2 = 1 then A = 1 else A = 0
;: ensures Z iff old A % 2 = 0
;: changes A
ODD     AND #1
        RTS

;: ensures A = 255 - old A
;: changes A
NOT     EOR #$FF
        RTS

;: ensures A = old A
PUSHED  PHA
        LDA #5
        PLA
        RTS

;: ensures A = old A / 2 + 128 * (old A % 2)
;: changes A
ROTATE  LSR
        BCC OVER
        ORA #$80
OVER    RTS

;: ensures A = [#$2000 + old X]
;: changes A
GET     LDA $2000,X
        RTS

;: ensures bit 3 of A = 1 and bit 2 of A = bit 2 of old A and A % 8 = old A % 8
;: changes A
SETBIT  ORA #$08
        RTS

;: ensures C iff bit 7 of old $06 = 1
;: ensures bit 0 of $06 = 0
;: changes $06
SHIFT   ASL $06
        RTS
