* wide: the numbers of Fibonacci in 32 bytes each, whose sum is carried along
ONE     EQU  $1000
OTHER   EQU  $1020
        ORG  $0800
        LDX  #31
        LDA  #0
CLEAR   STA  ONE,X
        STA  OTHER,X
        DEX
        BPL  CLEAR
        INC  ONE
AGAIN   CLC
        LDX  #0
        LDY  #32
ADD     LDA  ONE,X
        ADC  OTHER,X
        PHA
        LDA  ONE,X
        STA  OTHER,X
        PLA
        STA  ONE,X
        INX
        DEY
        BNE  ADD
        JMP  AGAIN
