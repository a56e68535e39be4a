* THE SUM OF TWO KEYS IN A.
RDKEY   EQU     $FD0C
FIRST   EQU     $06
        JSR     RDKEY
        STA     FIRST
        JSR     RDKEY
        CLC
        ADC     FIRST
        RTS
