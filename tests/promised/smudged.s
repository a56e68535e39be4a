* Text pages of which too much is promised: what is wrong is found out by states, or by the prover.
        ORG $300
* another text
;: ensures text $0400 = "HI"
;: changes A, $0400..$0401
HO      LDA #"H"
        STA $0400
        LDA #"O"
        STA $0401
        RTS

* no character is flashing
;: ensures text $0400 = "H"
;: changes A, $0400
FLASH   LDA #'H'
        STA $0400
        RTS

* the first cell is not stored at
;: ensures for all i < 40: [#$0480 + i] = old A
;: changes X, $0480..$04A7
ROW     LDX #39
;: invariant A = old A and 1 <= X <= 39
;: invariant for all i < 40: if i > X then [#$0480 + i] = A
;: decreases X
RLOOP   STA $0480,X
        DEX
        BNE RLOOP
        RTS

* the last one of the row stands not behind changes
;: requires X < 40
;: ensures  [#$0400 + X] = A
;: changes  $0400..$0426
LAST    STA $0400,X
        RTS

* a cell is said to be another where X is 7 and Y is 13, which only the prover finds out
;: requires X < 40 and Y < 40
;: ensures  if X = 7 and Y = 13 then $0500 = old $0500 + 1 else $0500 = old $0500
;: changes  A, $0500
RARE    LDA $0500
        STA $0500
        RTS

* both are said to be what is stored first
;: requires X < 40 and Y < 40
;: ensures  [#$0400 + X] = 1 and [#$0400 + Y] = 2
;: changes  A, $0400..$0427
EITHER  LDA #1
        STA $0400,X
        LDA #2
        STA $0400,Y
        RTS

* a cell is another in one state of 65,536 of two cells, which only the prover finds out, too
;: ensures $0402 = old $0402
;: changes A, $0402
ONCE    LDA $0400
        CMP #77
        BNE ODONE
        LDA $0401
        CMP #143
        BNE ODONE
        INC $0402
ODONE   RTS

* nothing says that the pointer points at the row
;: ensures [#$0400 + Y] = A
;: changes $0400..$07FF
ASTRAY  STA ($06),Y
        RTS

* a store into a cell is said to leave all
;: ensures for all i < 40: [#$0400 + i] = old [#$0400 + i]
;: changes A, X, $0400..$0427
TOUCH   LDX #0
;: invariant X < 40
;: invariant for all i < 40: [#$0400 + i] = old [#$0400 + i]
;: decreases 40 - X
TLOOP   LDA $0400,X
        ORA #$80
        STA $0400,X
        INX
        CPX #40
        BNE TLOOP
        RTS

* the invariant does not say how far X goes
;: ensures X = 0
;: changes X, $0480..$04A7
LOOSE   LDX #40
;: invariant 1 <= X
;: decreases X
LLOOP   STA $047F,X
        DEX
        BNE LLOOP
        RTS
