* AS MANY CELLS AS $08 SAYS, FROM THE ADDRESS IN $06 AND $07 ON, BECOME THE BYTE AT $09.
        ORG     $06
        DW      $2000
        DFB     5,$AA
        ORG     $300
        LDA     $09
        LDY     $08
LOOP    BEQ     DONE
        DEY
        STA     ($06),Y
        JMP     LOOP
DONE    RTS
