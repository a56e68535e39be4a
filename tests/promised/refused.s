* What is not read, and what can't be proved yet: the others in the file are still judged.
        ORG $300
;: ensures A + 3
NO1     RTS
;: ensures A = B
;: changes A
NO2     RTS
;: ensures A and 3
NO3     RTS
;: ensures for all i < 70000: A = old A
NO4     RTS
;: ensures cycles <= 40
NO5     RTS
;: ensures A = sum i < X: 1
NO6     RTS
;: ensures A = $10 / $11
NO7     RTS
;: ensures [#$C000] = 0
NO8     RTS
;: surely A = 3
NO9     RTS
;: ensures A = if C then 1 else 0
NO10    RTS
;: ensures text $0400 = HI
NO11    RTS
;: ensures A = 0
;: changes A, $0400..$04FF
NO12    LDA #0
        STA ($06),Y
        RTS
;: ensures  A = A
;: changes  A
NO13    LDA ($06,X)
        RTS
;: ensures A = old A
;: changes A
NO14    LDA $C000
        RTS
;: ensures [#$10 - X] = old [#$10 - X]
NO15    RTS
;: ensures A = old A
GOOD    RTS
;: prints "HI"
NO16    RTS
;: ensures text $0400 = ""
NO17    RTS
;: ensures $0400 = 0
;: changes A, X, $0400..$040F
NO18    LDA #0
        LDX #15
N18     STA $0400,X
        DEX
        BPL N18
        RTS
* services of which nothing is proved: those that want a key, and others
;: ensures A >= 128
;: changes A
NO19    JSR $FD0C
        RTS
;: ensures A >= 128
;: changes A
NO20    JSR $FD1B
        RTS
;: ensures X < 256
;: changes A, X, $24..$25, $28..$29, $0200..$02FF, $0400..$07FF
NO21    JSR $FD6A
        RTS
;: ensures A = old A
;: changes $0400..$07FF
NO22    JSR $F800
        RTS
* so rarely that no trial comes to it
;: ensures X = old X
;: changes A
NO23    LDA $06
        CMP #77
        BNE N23
        LDA $07
        CMP #99
        BNE N23
        JSR $FD0C
N23     RTS
* keys are a text in quotes
;: takes YES
NO24    RTS
;: takes "YES\n"
NO25    RTS
