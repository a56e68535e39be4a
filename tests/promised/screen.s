* Text pages: stores and loads there, at known addresses, by an index and through a pointer.
        ORG $300
;: ensures text $0400 = "HI"
;: changes A, $0400..$0401
HI      LDA #"H"
        STA $0400
        LDA #"I"
        STA $0401
        RTS

* a row is cleared, and two characters stand at its start
;: ensures text $0400 = "HI"
;: ensures for all i < 38: [#$0402 + i] = 160
;: changes A, X, $0400..$0427
TITLE   LDA #$A0
        LDX #40
;: invariant A = 160 and 1 <= X <= 40
;: invariant for all i < 40: if i >= X then [#$0400 + i] = 160
;: decreases X
TLOOP   STA $03FF,X
        DEX
        BNE TLOOP
        LDA #"H"
        STA $0400
        LDA #"I"
        STA $0401
        RTS

* forty cells of a row, and none else
;: ensures for all i < 40: [#$0480 + i] = old A
;: ensures for all i < 88: [#$04A8 + i] = old [#$04A8 + i]
;: changes X, $0480..$04A7
ROW     LDX #40
;: invariant A = old A and 1 <= X <= 40
;: invariant for all i < 40: if i >= X then [#$0480 + i] = A
;: decreases X
RLOOP   STA $047F,X
        DEX
        BNE RLOOP
        RTS

* a row goes up
;: ensures for all i < 40: [#$0400 + i] = old [#$0480 + i]
;: changes A, X, $0400..$0427
UP      LDX #0
;: invariant X < 40
;: invariant for all i < X: [#$0400 + i] = old [#$0480 + i]
;: decreases 40 - X
UPLOOP  LDA $0480,X
        STA $0400,X
        INX
        CPX #40
        BNE UPLOOP
        RTS

* eight cells through a pointer that is set before, of page 2
;: ensures for all i < 8: [#$0800 + i] = old X
;: changes A, Y, $06..$07, $0800..$0807
POINTED LDY #0
        STY $06
        LDA #$08
        STA $07
        TXA
;: invariant word $06 = #$0800 and Y < 8 and A = old X and X = old X
;: invariant for all i < Y: [#$0800 + i] = old X
;: decreases 8 - Y
PLOOP   STA ($06),Y
        INY
        CPY #8
        BNE PLOOP
        RTS

* two cells change places, and the byte between the rows, which is no cell, is counted
;: ensures $0400 = old $07F7 and $07F7 = old $0400
;: ensures $0478 = (old $0478 + 1) % 256
;: changes A, X, $0400, $0478, $07F7
CHANGE  LDA $0400
        LDX $07F7
        STX $0400
        STA $07F7
        INC $0478
        RTS

* a text that is known, to the end of it
;: requires text $2000 = "HELLO"
;: ensures  text $0400 = "HELLO" and $0405 = old $0405
;: changes  A, X, $0400..$0404
COPY    LDX #4
CLOOP   LDA $2000,X
        STA $0400,X
        DEX
        BPL CLOOP
        RTS

* a digit of A is shown, and another routine called
;: requires A < 10 and X < 40
;: ensures  [#$0400 + X] = old A + 176
;: ensures  for all i < 40: [#$0480 + i] = A
;: changes  A, $0400..$04FF, $01
SHOW    CLC
        ADC #$B0
        STA $0400,X
        STX $01
        JSR ROW
        LDX $01
        RTS

* where the byte is that was stored last, or the one before it
;: requires X < 40 and Y < 40
;: ensures  if X = Y then [#$0400 + X] = 2 else [#$0400 + X] = 1 and [#$0400 + Y] = 2
;: changes  A, $0400..$0427
EITHER  LDA #1
        STA $0400,X
        LDA #2
        STA $0400,Y
        RTS
