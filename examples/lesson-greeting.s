* A GREETING, PRINTED BY COUT.
COUT    EQU     $FDED
        LDX     #0
LOOP    LDA     TEXT,X
        BEQ     DONE
        JSR     COUT
        INX
        BNE     LOOP
DONE    RTS
TEXT    ASC     "HELLO"
        DFB     0
