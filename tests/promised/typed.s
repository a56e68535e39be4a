* Keys that a routine takes: one after another, by RDKEY and KEYIN, and a line by GETLN.
        ORG $300
* one key
;: requires word $38 = #$FD1B
;: takes    "Y"
;: ensures  A = #$D9
;: changes  A
ONE     JSR $FD0C
        RTS

* two keys, and a byte between them
;: requires word $38 = #$FD1B
;: takes    "4"
;: takes    "2"
;: ensures  $06 = 180 and $07 = 178 and A = $07 and X = old X
;: changes  A, $06..$07
TWO     JSR $FD0C
        STA $06
        JSR $FD0C
        STA $07
        RTS

* a letter decides, and the way that is gone takes RETURN too
;: requires word $38 = #$FD1B
;: takes    "Y\r"
;: ensures  X = 1 and A = 141
;: changes  A, X
YESNO   LDX #0
        JSR $FD0C
        CMP #"Y"
        BNE NO
        INX
        JSR $FD1B
NO      RTS

* one of two calls takes the key, whatever X is
;: takes    "A"
;: ensures  A = 193
;: changes  A
EITHER  CPX #1
        BEQ ENEXT
        JSR $FD1B
ENEXT   CPX #1
        BNE EDONE
        JSR $FD1B
EDONE   RTS

* keys up to RETURN are stored, and counted
;: takes    "HI\r"
;: ensures  X = 2 and text $10 = "HI" and $12 = 141
;: changes  A, X, $10..$12
STORED  LDX #0
SLOOP   JSR $FD1B
        STA $10,X
        CMP #$8D
        BEQ SDONE
        INX
        BNE SLOOP
SDONE   RTS

* a key is echoed
;: requires $21 >= 1 and $20 + $21 <= 40 and $22 < $23 <= 24 and $20 + $24 < 40 and $25 < 24
;: requires word $36 = #$FDF0 and word $38 = #$FD1B
;: takes    "Q"
;: ensures  A = 209 and $20 + $24 < 40
;: changes  A, $24..$25, $28..$29, $0400..$07FF
ECHO    JSR $FD0C
        JSR $FDED
        RTS

* a line, small letters as capitals
;: requires $21 >= 1 and $20 + $21 <= 40 and $22 < $23 <= 24 and $20 + $24 < 40 and $25 < 24
;: takes    "Run\r"
;: ensures  X = 3 and text $0200 = "RUN" and $0203 = 141 and A = old A
;: changes  X, $24..$25, $28..$29, $0200..$02FF, $0400..$07FF
LINE    JSR $FD6A
        RTS

* of a line the first blank is looked for, by an index
;: requires $21 >= 1 and $20 + $21 <= 40 and $22 < $23 <= 24 and $20 + $24 < 40 and $25 < 24
;: takes    "GO 7\r"
;: ensures  $06 = 2 and A = 183 and $07 = old $07
;: changes  A, X, $06, $24..$25, $28..$29, $0200..$02FF, $0400..$07FF
BLANK   JSR $FD6A
        LDX #0
BLOOP   LDA $0200,X
        CMP #$A0
        BEQ BFOUND
        INX
        CPX #4
        BNE BLOOP
BFOUND  STX $06
        LDA $0201,X
        RTS

* two lines behind one another, and a loop between them in which no key is taken
;: requires $21 >= 1 and $20 + $21 <= 40 and $22 < $23 <= 24 and $20 + $24 < 40 and $25 < 24 and Y >= 1
;: takes    "A\rBC\r"
;: ensures  X = 2 and text $0200 = "BC" and Y = 0 and $06 = 193
;: changes  A, X, Y, $06, $24..$25, $28..$29, $0200..$02FF, $0400..$07FF
AGAIN   JSR $FD6A
        LDA $0200
        STA $06
;: invariant 1 <= Y and $06 = 193 and $20 + $24 < 40 and $25 < 24
;: invariant $21 >= 1 and $20 + $21 <= 40 and $22 < $23 <= 24
;: decreases Y
ALOOP   DEY
        BNE ALOOP
        JSR $FD6A
        RTS

* a routine that takes keys is called, behind one that takes none and before another key
;: requires word $38 = #$FD1B
;: takes    "42Y"
;: ensures  $06 = 180 and $07 = 178 and A = 217 and X = 7
;: changes  A, X, $06..$07
CALLS   JSR SEVEN
        JSR TWO
        JSR $FD1B
        RTS
;: ensures  X = 7
;: changes  X
SEVEN   LDX #7
        RTS
