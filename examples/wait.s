; Waits for a key, and prints it.
COUT    EQU $FDED
        ORG $300
WAIT    LDA $C000
        BPL WAIT
SEEN    JSR COUT
        RTS
