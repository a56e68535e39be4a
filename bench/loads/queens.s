* queens: eight of them on a board, by going back where none can be placed; all ways are counted
ROW     EQU  $06
FOUND   EQU  $07
PLACE   EQU  $1000
COLUMNS EQU  $1010
RISING  EQU  $1020
FALLING EQU  $1040
        ORG  $0800
        LDX  #95
        LDA  #0
CLEAR   STA  PLACE,X
        DEX
        BPL  CLEAR
        STA  FOUND
START   LDX  #0
ENTER   LDA  #0
        STA  PLACE,X
TRY     LDY  PLACE,X
        CPY  #8
        BEQ  BACK
        LDA  COLUMNS,Y
        BNE  NOTHERE
        TXA
        CLC
        ADC  PLACE,X
        TAY
        LDA  RISING,Y
        BNE  NOTHERE
        TXA
        SEC
        SBC  PLACE,X
        CLC
        ADC  #7
        TAY
        LDA  FALLING,Y
        BNE  NOTHERE
        LDA  #1
        JSR  MARK
        INX
        CPX  #8
        BNE  ENTER
        INC  FOUND
BACK    DEX
        BMI  START
        LDA  #0
        JSR  MARK
NOTHERE INC  PLACE,X
        JMP  TRY
* marks the lines of the queen in row X by A
MARK    STA  ROW
        LDY  PLACE,X
        STA  COLUMNS,Y
        TXA
        CLC
        ADC  PLACE,X
        TAY
        LDA  ROW
        STA  RISING,Y
        TXA
        SEC
        SBC  PLACE,X
        CLC
        ADC  #7
        TAY
        LDA  ROW
        STA  FALLING,Y
LEAVE   RTS
