* rule: a row of 240 cells, each made anew of the three above it by the bits of a rule
CELLS   EQU  $1001
MORE    EQU  $1101
RULE    EQU  $06
AT      EQU  $07
        ORG  $0800
        LDA  #110
        STA  RULE
        LDA  #1
        STA  CELLS+239
AGAIN   LDX  #0
CELL    LDA  CELLS-1,X
        ASL  A
        ORA  CELLS,X
        ASL  A
        ORA  CELLS+1,X
        TAY
        LDA  RULE
SHIFT   DEY
        BMI  THERE
        LSR  A
        BPL  SHIFT        ; always: bit 7 is 0
THERE   AND  #1
        STA  MORE,X
        INX
        CPX  #240
        BNE  CELL
        LDX  #0
BACK    LDA  MORE,X
        STA  CELLS,X
        INX
        CPX  #240
        BNE  BACK
        JMP  AGAIN
