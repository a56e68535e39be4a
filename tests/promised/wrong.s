* Promises that do not hold: each is found out by a state.
        ORG $300
* a sum that may wrap
;: ensures A = old $10 + old $11
;: changes A
BAD1    CLC
        LDA $10
        ADC $11
        RTS
* a byte is changed that is not named
;: ensures A = old $10
;: changes A
BAD2    LDA $10
        STA $12
        RTS
* CLC is forgotten
;: requires $10 <= 100 and $11 <= 100
;: ensures  A = old $10 + old $11
;: changes  A
BAD3    LDA $10
        ADC $11
        RTS
* wrong at one value of A
;: ensures if old A = 255 then A = 0 else A = old A + 1
;: changes A
BAD4    CMP #254
        BEQ SAME
        CLC
        ADC #1
SAME    RTS
* a way that ends by BRK
;: ensures A = max(old $10, old $11)
;: changes A
BAD5    LDA $10
        CMP $11
        BCC W5B
        BNE W5C
        BRK
W5B     LDA $11
W5C     RTS
* X is changed, and not named
;: ensures A = old X
;: changes A
BAD6    TXA
        INX
        RTS
* required is what no state meets
;: requires $10 < 5 and $10 > 9
;: ensures  A = 1
;: changes  A
BAD7    RTS
* the lesser for the greater
;: ensures $08 = max($06, $07)
;: changes A, $08
BAD9    LDA $06
        CMP $07
        BCC W9D
        LDA $07
W9D     STA $08
        RTS
* C is the other way round
;: ensures C iff old $10 < old $11
;: changes A
BAD10   LDA $10
        CMP $11
        RTS
* one place too few
;: ensures A = old A / 8
;: changes A
BAD11   LSR
        LSR
        RTS
* it does not come back
;: ensures A = old A
BAD12   JMP BAD12
* the high byte is forgotten
;: ensures word $06 = (old word $06 + 1) % 65536
;: changes $06, $07
BAD13   INC $06
        RTS
* the loop ends one too early
;: ensures $20 = 0 and $23 = 0
;: changes A, X, $20..$23
BAD14   LDA #0
        LDX #3
W14L    STA $20,X
        DEX
        BNE W14L
        RTS
* a mask with a bit too many
;: ensures A = old A % 16
;: changes A
BAD15   AND #$1F
        RTS
* the stack is left otherwise
;: ensures A = old A
BAD16   PHA
        RTS
* signed for unsigned
;: ensures if old A < old $10 then A = 1 else A = 0
;: changes A
BAD17   CMP $10
        BMI W17L
        LDA #0
        RTS
W17L    LDA #1
        RTS
* a product that wraps
;: ensures A = 4 * old A
;: changes A
BAD18   ASL
        ASL
        RTS
* it stores into its own code
;: ensures A = old A
;: changes $0300..$03FF
BAD19   STA BAD19
        RTS
* A is changed on one way only
;: ensures X = old X
BAD20   CPX #7
        BNE W20D
        LDA #0
W20D    RTS
