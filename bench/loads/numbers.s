* numbers: texts of decimal digits are read as numbers of 16 bits, and summed
AT      EQU  $06
VALUE   EQU  $08
TWICE   EQU  $0A
SUM     EQU  $0C
        ORG  $0800
        LDA  #0
        STA  SUM
        STA  SUM+1
AGAIN   LDA  #<TEXT
        STA  AT
        LDA  #>TEXT
        STA  AT+1
NUMBER  LDY  #0
        STY  VALUE
        STY  VALUE+1
READ    LDA  (AT),Y
        BEQ  ENDED
        INC  AT
        BNE  NOCARRY
        INC  AT+1
NOCARRY SEC
        SBC  #$B0
        BCC  KNOWN
        CMP  #10
        BCS  KNOWN
        TAX
        ASL  VALUE
        ROL  VALUE+1
        LDA  VALUE
        STA  TWICE
        LDA  VALUE+1
        STA  TWICE+1
        ASL  VALUE
        ROL  VALUE+1
        ASL  VALUE
        ROL  VALUE+1
        TXA
        CLC
        ADC  VALUE
        STA  VALUE
        BCC  ADDED
        INC  VALUE+1
        CLC
ADDED   LDA  VALUE
        ADC  TWICE
        STA  VALUE
        LDA  VALUE+1
        ADC  TWICE+1
        STA  VALUE+1
        JMP  READ
KNOWN   LDA  SUM
        CLC
        ADC  VALUE
        STA  SUM
        LDA  SUM+1
        ADC  VALUE+1
        STA  SUM+1
        JMP  NUMBER
ENDED   JMP  AGAIN
TEXT    ASC  "1,22,333,4444,55555,60000,7,65535,10,100,1000,10000,"
        DFB  0
