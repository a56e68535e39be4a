* Keys of which too much is promised, or that are not taken as a line takes says.
        ORG $300
* another key
;: takes    "N"
;: ensures  A = #$D9
;: changes  A
OTHER   JSR $FD1B
        RTS

* keys are left
;: takes    "YES\r"
;: ensures  A = #$D9
;: changes  A
LEFT    JSR $FD1B
        RTS

* one key more than there are
;: takes    "Y"
;: changes  A
MORE    JSR $FD1B
        JSR $FD1B
        RTS

* no key is typed
;: ensures  A >= 128
;: changes  A
NONE    JSR $FD1B
        RTS

* a line without its end
;: requires $20 = 0 and $21 = 40 and $22 = 0 and $23 = 24 and $24 < 40 and $25 < 24
;: takes    "GO"
;: changes  X, $24..$25, $28..$29, $0200..$02FF, $0400..$07FF
ENDLESS JSR $FD6A
        RTS

* a line that is edited
;: requires $20 = 0 and $21 = 40 and $22 = 0 and $23 = 24 and $24 < 40 and $25 < 24
;: takes    "GX\bO\r"
;: ensures  X = 2
;: changes  X, $24..$25, $28..$29, $0200..$02FF, $0400..$07FF
EDITED  JSR $FD6A
        RTS

* another length, and another byte
;: requires $20 = 0 and $21 = 40 and $22 = 0 and $23 = 24 and $24 < 40 and $25 < 24
;: takes    "GO\r"
;: ensures  X = 3
;: changes  X, $24..$25, $28..$29, $0200..$02FF, $0400..$07FF
LENGTH  JSR $FD6A
        RTS
;: requires $20 = 0 and $21 = 40 and $22 = 0 and $23 = 24 and $24 < 40 and $25 < 24
;: takes    "go\r"
;: ensures  $0201 = #$EF
;: changes  X, $24..$25, $28..$29, $0200..$02FF, $0400..$07FF
SMALL   JSR $FD6A
        RTS

* each turn takes a key
;: takes    "AB\r"
;: ensures  A = 141
;: changes  A
TURNS   NOP
;: invariant X = old X
TLOOP   JSR $FD1B
        CMP #$8D
        BNE TLOOP
        RTS

* two ways to a label, one of which takes a key
;: takes    "AB"
;: ensures  A = 194
;: changes  A
WAYS    CPX #1
        BEQ WNOTE
        JSR $FD1B
;: note X = old X
WNOTE   CPX #1
        BNE WLAST
        JSR $FD1B
WLAST   JSR $FD1B
        RTS

* the line is stored beside what stands behind changes
;: requires $20 = 0 and $21 = 40 and $22 = 0 and $23 = 24 and $24 < 40 and $25 < 24
;: takes    "GO\r"
;: ensures  X = 2
;: changes  X, $24..$25, $28..$29, $0200..$0202, $0400..$07FF
BESIDE  JSR $FD6A
        RTS

* nothing says where the input hook leads
;: takes    "Y"
;: changes  A
HOOK    JSR $FD0C
        RTS

* a routine that takes other keys is called
;: takes    "Z"
;: changes  A
ZED     JSR $FD1B
        RTS
;: takes    "N"
;: changes  A
CALLS   JSR ZED
        RTS

* a key is left so rarely that no trial comes to it
;: takes    "N"
;: changes  A
RARE    LDA $06
        CMP #77
        BNE RTAKE
        LDA $07
        CMP #99
        BEQ RDONE
RTAKE   JSR $FD1B
RDONE   RTS

* nothing says in the loop which key it was
;: requires Y >= 1
;: takes    "A"
;: ensures  A = 193
;: changes  A, Y
FORGET  JSR $FD1B
;: invariant 1 <= Y
;: decreases Y
FLOOP   DEY
        BNE FLOOP
        RTS

* the keyboard itself
;: takes    "N"
;: changes  A
POLLS   LDA $C000
        STA $C010
        RTS
