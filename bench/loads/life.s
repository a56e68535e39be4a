* life: generations of Conway's game on a torus of 16 columns and 16 rows, a byte a cell
OLD     EQU  $1000
NEW     EQU  $1100
CELL    EQU  $06
LEFT    EQU  $07
RIGHT   EQU  $08
        ORG  $0800
        LDX  #0
SEED    TXA
        ASL  A
        EOR  #$5B
        AND  #$13
        CMP  #$10
        LDA  #0
        BCC  DEAD
        LDA  #1
DEAD    STA  OLD,X
        INX
        BNE  SEED
AGAIN   LDX  #0
EACH    STX  CELL
        TXA
        AND  #$F0
        STA  LEFT
        DEX
        TXA
        AND  #$0F
        ORA  LEFT
        STA  RIGHT
        LDX  CELL
        INX
        TXA
        AND  #$0F
        ORA  LEFT
        TAY
        LDX  RIGHT
        LDA  OLD,X
        CLC
        ADC  OLD,Y
        JSR  COLUMN
        PHA
        TYA
        TAX
        PLA
        JSR  COLUMN
        LDX  CELL
        JSR  COLUMN
        CMP  #3
        BEQ  LIVES
        CMP  #2
        BNE  DIES
        LDA  OLD,X
        JMP  KEEP
LIVES   LDA  #1
        BNE  KEEP
DIES    LDA  #0
KEEP    STA  NEW,X
        INX
        BNE  EACH
COPY    LDA  NEW,X
        STA  OLD,X
        INX
        BNE  COPY
        JMP  AGAIN
* adds the cells above and below that of X to A
COLUMN  STA  RIGHT
        TXA
        SEC
        SBC  #16
        TAX
        LDA  OLD,X
        CLC
        ADC  RIGHT
        STA  RIGHT
        TXA
        CLC
        ADC  #32
        TAX
        LDA  OLD,X
        CLC
        ADC  RIGHT
        STA  RIGHT
        TXA
        SEC
        SBC  #16
        TAX
        LDA  RIGHT
DONE    RTS
