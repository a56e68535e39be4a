* Arrays of which too much is promised: what is wrong is found out by states, or by the prover.
        ORG $300
* the loop's invariant says one cell too much
;: ensures for all i < 256: [#$2000 + i] = 0
;: changes A, X, $2000..$20FF
OFF1    LDA #0
        TAX
;: invariant A = 0
;: invariant for all i < X + 1: [#$2000 + i] = 0
;: decreases 255 - X
OLOOP   STA $2000,X
        INX
        BNE OLOOP
        RTS

* one cell more than is filled
;: requires X >= 1
;: ensures  for all i < old X + 1: [#$2000 + i] = A
;: changes  X, $2000..$20FF
MORE1   NOP
;: invariant A = old A and 1 <= X <= old X
;: invariant for all i < old X: if i >= X then [#$2000 + i] = A
;: decreases X
MLOOP   STA $1FFF,X
        DEX
        BNE MLOOP
        RTS

* a length of 0: 256 cells are filled
;: ensures  for all i < old X: [#$2000 + i] = A
;: changes  X, $2000..$20FE
FILL0   NOP
;: invariant A = old A and X <= old X
;: invariant for all i < old X: if i >= X then [#$2000 + i] = A
;: decreases X
F0LOOP  STA $1FFF,X
        DEX
        BNE F0LOOP
        RTS

* one byte less stands behind changes
;: requires X >= 1
;: ensures  for all i < old X: [#$2000 + i] = A
;: changes  X, $2000..$20FD
LESS    NOP
;: invariant A = old A and 1 <= X <= old X
;: invariant for all i < old X: if i >= X then [#$2000 + i] = A
;: decreases X
LLOOP   STA $1FFF,X
        DEX
        BNE LLOOP
        RTS

* the index wraps in page 0
;: requires X <= 128
;: ensures  for all i < 1: [#$30 + i] = old [#$30 + i]
;: changes  A, X, $80..$FF
WRAP    LDA #0
        STA $80,X
        RTS

* the invariant is not kept: nothing is said of A
;: requires A = 0 and X >= 1
;: ensures  for all i < old X: [#$2000 + i] = 0
;: changes  A, X, $2000..$20FE
NOA     NOP
;: invariant 1 <= X <= old X
;: invariant for all i < old X: if i >= X then [#$2000 + i] = 0
;: decreases X
NLOOP   STA $1FFF,X
        DEX
        BNE NLOOP
        RTS

* the first byte goes into all
;: ensures for all i < 255: [#$2001 + i] = old [#$2000 + i]
;: changes A, X, $2000..$20FF
SHIFT   LDX #0
;: invariant X < 255
;: invariant for all i < X: [#$2001 + i] = old [#$2000 + i]
;: decreases 255 - X
SLOOP   LDA $2000,X
        STA $2001,X
        INX
        CPX #255
        BNE SLOOP
        RTS

* the index wraps at 256, and 256 cells are filled in place of none
;: ensures for all i < 256: if i >= old X then [#$2000 + i] = old [#$2000 + i]
;: changes X, $2000..$20FF
NONE    NOP
;: invariant A = old A
;: invariant for all i < 256: if i >= old X then [#$2000 + i] = old [#$2000 + i]
;: decreases X
NLOOP2  STA $1FFF,X
        DEX
        BNE NLOOP2
        RTS

* the last cell is not stored at
;: ensures for all i < 256: [#$2000 + i] = 0
;: changes A, X, $2000..$20FF
LAST    LDA #0
        TAX
;: invariant A = 0
;: invariant for all i < X: [#$2000 + i] = 0
;: decreases 255 - X
LASTL   STA $2000,X
        INX
        CPX #255
        BNE LASTL
        RTS

* the inner loop does not say that Y is as it was at OUTER
;: requires Y >= 1
;: ensures  Y = 0
;: changes  X, Y
NEST    LDX #0
;: invariant 1 <= Y
;: decreases Y
OUTER   LDX #3
;: invariant X >= 1
;: decreases X
INNER   DEX
        BNE INNER
        DEY
        BNE OUTER
        RTS

* what is said of OUTER holds of no run
;: requires Y >= 1
;: ensures  Y = 0
;: changes  X, Y
NEST2   LDX #0
;: invariant 1 <= Y
;: decreases Y
OUTER2  LDX #3
;: invariant X >= 1 and Y + 1 = at OUTER2 Y
;: decreases X
INNER2  DEX
        BNE INNER2
        DEY
        BNE OUTER2
        RTS

* the byte behind the last one comes first
;: ensures [#$2000] = old [#$2010] and for all i < 16: [#$200F - i] = old [#$200F - i]
;: changes A, $2000
FIRST   LDA $2010
        STA $2000
        RTS

* all but the first are as they were, of the first nothing is known
;: ensures for all i < 16: [#$200F - i] = old [#$200F - i] or i = 15 and old X = 3 and old Y = 200
;: changes X, $2000..$200F
KEEPS   LDX #0
;: invariant X <= 1
;: invariant for all i < 16: if i >= X then [#$2000 + i] = old [#$2000 + i]
;: decreases 1 - X
KLOOP   CPX #1
        BEQ KDONE
        INC $2000,X
        INX
        JMP KLOOP
KDONE   RTS

* of two names that are one the inner one is meant
;: ensures for all i < 2: for all i < 3: i < 2
TWICE   RTS
