* Services of which too much is promised, or that are called where they are not as they need it.
        ORG $300
* A is not as it was behind CROUT
;: requires $20 = 0 and $21 = 40 and $22 = 0 and $23 = 24 and $24 < 40 and $25 < 24
;: requires word $36 = #$FDF0
;: ensures  A = old A
;: changes  A, $24..$25, $28..$29, $0400..$07FF
LINE    JSR $FD8E
        RTS

* the cursor may lie beside the screen
;: requires $20 = 0 and $21 = 40 and $22 = 0 and $23 = 24 and $25 < 24
;: ensures  A = old A
;: changes  $24..$25, $28..$29, $0400..$07FF
BESIDE  JSR $FDF0
        RTS

* the hook may lead elsewhere
;: requires $20 = 0 and $21 = 40 and $22 = 0 and $23 = 24 and $24 < 40 and $25 < 24
;: ensures  A = old A
;: changes  $24..$25, $28..$29, $0400..$07FF
HOOK    JSR $FDED
        RTS

* the cursor goes on
;: requires $20 = 0 and $21 = 40 and $22 = 0 and $23 = 24 and $24 < 40 and $25 < 24
;: ensures  A = old A
;: changes  $28..$29, $0400..$07FF
CURSOR  JSR $FDF0
        RTS

* nothing says that the cursor stays on the screen, which only the prover wants
;: requires $20 = 0 and $21 = 40 and $22 = 0 and $23 = 24 and $24 < 40 and $25 < 24 and X >= 1
;: ensures  X = 0
;: changes  X, $24..$25, $28..$29, $0400..$07FF
AGAIN   NOP
;: invariant 1 <= X
;: decreases X
ALOOP   JSR $FDF0
        DEX
        BNE ALOOP
        RTS

* what stands on the screen is not known behind a service
;: requires $20 = 0 and $21 = 40 and $22 = 0 and $23 = 24 and $24 = 0 and $25 = 0 and $32 = 255 and A >= 160
;: ensures  $0400 = A
;: changes  $24..$25, $28..$29, $0400..$07FF
SHOWN   JSR $FDF0
        RTS

* the service goes back to the caller, and no RTS of the routine
;: requires $20 = 0 and $21 = 40 and $22 = 0 and $23 = 24 and $24 < 40 and $25 < 24
;: ensures  A = old A
;: changes  $24..$25, $28..$29, $0400..$07FF
JUMP    JMP $FDF0

* one byte of the screen is said to stay
;: requires $20 = 0 and $21 = 40 and $22 = 0 and $23 = 24 and $24 < 40 and $25 < 24
;: ensures  $0500 = old $0500
;: changes  $24..$25, $28..$29, $0400..$07FF
STAYS   JSR $FDF0
        RTS

* SETINV leaves another mask
;: ensures  $32 = 255
;: changes  $32
MASK    JSR $FE80
        RTS

* that it is a blank is not known
;: requires $20 = 0 and $21 = 40 and $22 = 0 and $23 = 24 and $24 = 0 and $25 = 0
;: ensures  $0400 = 160
;: changes  $0400..$07FF
CLEAN   JSR $FC9C
        RTS
