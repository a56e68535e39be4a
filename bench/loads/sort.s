* sort: 200 bytes by insertion, filled anew by a row of pseudo random numbers
ROW     EQU  $1000
SEED    EQU  $06
HELD    EQU  $07
COUNT   EQU  200
        ORG  $0800
        LDA  #$5A
        STA  SEED
AGAIN   LDX  #0
FILL    LDA  SEED
        ASL  A
        BCC  KEEP
        EOR  #$1D
KEEP    STA  SEED
        STA  ROW,X
        INX
        CPX  #COUNT
        BNE  FILL
        LDX  #1
OUTER   LDA  ROW,X
        STA  HELD
        TXA
        TAY
INNER   LDA  ROW-1,Y
        CMP  HELD
        BCC  PLACE
        STA  ROW,Y
        DEY
        BNE  INNER
PLACE   LDA  HELD
        STA  ROW,Y
        INX
        CPX  #COUNT
        BNE  OUTER
        JMP  AGAIN
