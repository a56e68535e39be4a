* hex: bytes are written as two digits, and read again
INTO    EQU  $06
BYTE    EQU  $07
TEXT    EQU  $1000
        ORG  $0800
        LDY  #0
AGAIN   TYA
        STA  BYTE
        LDX  #0
        LSR  A
        LSR  A
        LSR  A
        LSR  A
        JSR  DIGIT
        LDA  BYTE
        AND  #$0F
        JSR  DIGIT
        LDX  #0
        LDA  TEXT,X
        JSR  VALUE
        ASL  A
        ASL  A
        ASL  A
        ASL  A
        STA  INTO
        INX
        LDA  TEXT,X
        JSR  VALUE
        ORA  INTO
        CMP  BYTE
        BNE  WRONG
        INY
        JMP  AGAIN
WRONG   BRK
DIGIT   CMP  #10
        BCC  SMALL
        ADC  #6
SMALL   ADC  #$30
        STA  TEXT,X
        INX
DONE    RTS
VALUE   SEC
        SBC  #$30
        CMP  #10
        BCC  READY
        SBC  #7
READY   RTS
