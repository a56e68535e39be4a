* divide: decimal digits of 16-bit numbers, by division by 10
NUMBER  EQU  $06
LEFT    EQU  $08
REST    EQU  $0A
DIGITS  EQU  $2000
        ORG  $0800
NEXT    INC  NUMBER
        BNE  SAME
        INC  NUMBER+1
SAME    LDA  NUMBER
        STA  LEFT
        LDA  NUMBER+1
        STA  LEFT+1
        LDY  #4
DIGIT   LDA  #0
        STA  REST
        LDX  #16
BIT     ASL  LEFT
        ROL  LEFT+1
        ROL  REST
        LDA  REST
        SEC
        SBC  #10
        BCC  LESS
        STA  REST
        INC  LEFT
LESS    DEX
        BNE  BIT
        LDA  REST
        ORA  #$B0
        STA  DIGITS,Y
        DEY
        BPL  DIGIT
        JMP  NEXT
