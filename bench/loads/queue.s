* queue: bytes go into a ring of 32 places and come out of it, three in and two out, and are summed as they come
HEAD    EQU  $06
TAIL    EQU  $07
COUNT   EQU  $08
SUM     EQU  $09
BYTE    EQU  $0A
RING    EQU  $1000
        ORG  $0800
        LDA  #0
        STA  HEAD
        STA  TAIL
        STA  COUNT
        STA  SUM
        STA  BYTE
ROUND   JSR  PUT
        JSR  PUT
        JSR  GET
        JSR  PUT
        JSR  GET
        JMP  ROUND
PUT     LDA  COUNT
        CMP  #32
        BEQ  FULL
        INC  COUNT
        LDX  TAIL
        LDA  BYTE
        CLC
        ADC  #7
        STA  BYTE
        STA  RING,X
        INX
        TXA
        AND  #31
        STA  TAIL
LEAVE   RTS
FULL    JSR  GET
        JMP  PUT
GET     LDA  COUNT
        BEQ  EMPTY
        DEC  COUNT
        LDX  HEAD
        LDA  RING,X
        CLC
        ADC  SUM
        STA  SUM
        INX
        TXA
        AND  #31
        STA  HEAD
EMPTY   RTS
