* random: numbers of 16 bits by a shift register with feedback, counted by their low nibble
LOW     EQU  $06
HIGH    EQU  $07
COUNTS  EQU  $1000
OVER    EQU  $1010
        ORG  $0800
        LDX  #15
        LDA  #0
CLEAR   STA  COUNTS,X
        STA  OVER,X
        DEX
        BPL  CLEAR
        LDA  #$E1
        STA  LOW
        LDA  #$AC
        STA  HIGH
NEXT    LDY  #8
BITS    LSR  HIGH
        ROR  LOW
        BCC  ZERO
        LDA  HIGH
        EOR  #$B4
        STA  HIGH
ZERO    DEY
        BNE  BITS
        LDA  LOW
        AND  #$0F
        TAX
        INC  COUNTS,X
        BNE  NEXT
        INC  OVER,X
        JMP  NEXT
