* Promises that hold in most states, or in each, and are not proved: only the prover finds out.
        ORG $300
* wrong in one state of 65,536
;: ensures if old $10 = #77 and old $11 = #143 then A = 1 else A = 0
;: changes A
RARE    LDA #0
        RTS
* the invariant says too little
;: ensures word $08 = old $06 * old $07
;: changes A, X, $08, $09
MUL     LDA #0
        STA $08
        STA $09
        LDX $06
        BEQ DONE
;: invariant 1 <= X
;: decreases X
LOOP    CLC
        LDA $08
        ADC $07
        STA $08
        BCC NEXT
        INC $09
NEXT    DEX
        BNE LOOP
DONE    RTS
* what is said to decrease goes up
;: ensures A = 0
;: changes A, X
UPWARD  LDX #1
;: invariant 1 <= X
;: decreases X
ULOOP   INX
        BNE ULOOP
        LDA #0
        RTS
* the call wants more than is so
;: ensures $13 = (old $13 + old A) % 256
;: changes A, $13
CALLER  JSR ADD
        RTS
;: requires A + $13 < 256
;: ensures  $13 = old $13 + old A
;: changes  A, $13
ADD     CLC
        ADC $13
        STA $13
        RTS
* the invariant does not hold where the loop is entered
;: ensures X = 0
;: changes X
EARLY   LDX #0
;: invariant X >= 1
;: decreases X
ELOOP   DEX
        BNE ELOOP
        RTS
* wrong where memory is as in few states
;: ensures A <> 200 or $10 <> 201
RARER   RTS
