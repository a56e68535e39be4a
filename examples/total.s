; Adds the four numbers of a table, and prints the sum: 100, which is $64.
; It prints 5A: docs/manual/debugger.md finds out why.
PRBYTE  EQU $FDDA
        ORG $300
        LDA #0
        LDX #3
NEXT    CLC
        ADC TABLE,X
        DEX
        BNE NEXT
DONE    JSR PRBYTE
        RTS
TABLE   DFB 10,20,30,40
