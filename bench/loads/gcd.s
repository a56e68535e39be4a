* gcd: the greatest common divisor of two numbers of 16 bits, by taking the less from the larger
ONE     EQU  $06
OTHER   EQU  $08
LEFT    EQU  $0A
RIGHT   EQU  $0C
        ORG  $0800
        LDA  #<1071
        STA  LEFT
        LDA  #>1071
        STA  LEFT+1
        LDA  #<462
        STA  RIGHT
        LDA  #>462
        STA  RIGHT+1
BEGIN   LDX  #3
COPY    LDA  LEFT,X
        STA  ONE,X
        DEX
        BPL  COPY
TURN    LDA  ONE+1
        CMP  OTHER+1
        BNE  DIFFER
        LDA  ONE
        CMP  OTHER
        BEQ  FOUND
DIFFER  BCC  LESS
        LDA  ONE
        SEC
        SBC  OTHER
        STA  ONE
        LDA  ONE+1
        SBC  OTHER+1
        STA  ONE+1
        JMP  TURN
LESS    LDA  OTHER
        SEC
        SBC  ONE
        STA  OTHER
        LDA  OTHER+1
        SBC  ONE+1
        STA  OTHER+1
        JMP  TURN
FOUND   INC  LEFT
        BNE  BEGIN
        INC  LEFT+1
        BNE  BEGIN
        INC  LEFT+1
        JMP  BEGIN
