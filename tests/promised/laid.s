* What is required of bytes that the program lays is so of them as they are laid, or there is no state of which a promise speaks.
        ORG $300
;: requires COUNT < 10
;: ensures  COUNT = old COUNT + 1
;: changes  COUNT, A
LESS    INC COUNT
        LDA COUNT
        RTS
;: requires COUNT = 3
;: ensures  A = 3
;: changes  A
THREE   LDA COUNT
        RTS
* it is 3 wherever this is entered
;: requires COUNT = 4
;: ensures  A = 4
;: changes  A
FOUR    LDA COUNT
        RTS
* the byte of an instruction, and one that is equal to it
;: requires LESS = #$EE and $10 = LESS
;: ensures  A = #$EE
;: changes  A
CODE    LDA $10
        RTS
* no byte is so
;: requires X < 3 and X > 5
;: ensures  A = 0
;: changes  A
NEVER   RTS
* bytes of a table and of an array
;: requires for all i < 4: [#TABLE + i] < [#$2000 + i]
;: requires word TABLE = #$0201
;: ensures  A < $2001
;: changes  A
ARRAY   LDA TABLE+1
        RTS
COUNT   DFB 3
TABLE   DFB 1,2
        DS  2
