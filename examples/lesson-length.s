* $08 BECOMES THE LENGTH OF THE TEXT THAT BEGINS AT THE ADDRESS IN $06 AND $07 AND ENDS IN 0.
        ORG     $06
        DW      TEXT
        ORG     $300
        LDY     #0
LOOP    LDA     ($06),Y
        BEQ     DONE
        INY
        JMP     LOOP
DONE    STY     $08
        RTS
TEXT    ASC     "A TEXT"
        DFB     0
