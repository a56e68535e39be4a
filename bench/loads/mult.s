* mult: products of 8 by 8 bits by shifts and adds
FACTOR  EQU  $06
OTHER   EQU  $07
LOW     EQU  $08
SUM     EQU  $0A
        ORG  $0800
NEXT    INC  OTHER
        BNE  SAME
        INC  FACTOR
SAME    LDA  FACTOR
        STA  LOW
        LDA  #0
        LDX  #8
        LSR  LOW
BIT     BCC  NONE
        CLC
        ADC  OTHER
NONE    ROR  A
        ROR  LOW
        DEX
        BNE  BIT
        CLC
        ADC  SUM
        STA  SUM
        JMP  NEXT
