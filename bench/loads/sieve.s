* sieve: the primes below 8,192, again and again
FLAGS   EQU  $1000
POINT   EQU  $06
STEP    EQU  $08
        ORG  $0800
AGAIN   LDA  #0           ; all are candidates
        STA  POINT
        TAY
        LDX  #$20
        LDA  #$10
        STA  POINT+1
        LDA  #0
CLEAR   STA  (POINT),Y
        INY
        BNE  CLEAR
        INC  POINT+1
        DEX
        BNE  CLEAR
        LDA  #2
        STA  STEP
NEXT    LDX  STEP
        LDA  FLAGS,X
        BNE  SKIP
        TXA               ; strike the multiples out
        STA  POINT
        LDA  #$10
        STA  POINT+1
        LDY  #0
STRIKE  CLC
        LDA  POINT
        ADC  STEP
        STA  POINT
        BCC  SAME
        INC  POINT+1
SAME    LDA  POINT+1
        CMP  #$30
        BCS  SKIP
        LDA  #1
        STA  (POINT),Y
        BNE  STRIKE
SKIP    INC  STEP
        LDA  STEP
        CMP  #91
        BCC  NEXT
        JMP  AGAIN
