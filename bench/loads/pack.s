* pack: a page is packed by its runs of like bytes, and unpacked again
FROM    EQU  $06
INTO    EQU  $08
BYTE    EQU  $0A
RUN     EQU  $0B
        ORG  $0800
        LDX  #0
FILL    TXA
        LSR  A
        LSR  A
        AND  #$15
        STA  $1000,X
        INX
        BNE  FILL
AGAIN   LDA  #$00
        STA  FROM
        STA  INTO
        LDA  #$10
        STA  FROM+1
        LDA  #$11
        STA  INTO+1
        LDY  #0
PACK    LDA  (FROM),Y
        STA  BYTE
        LDX  #0
SAME    INX
        INC  FROM
        BEQ  WRITE
        LDA  (FROM),Y
        CMP  BYTE
        BEQ  SAME
WRITE   TXA
        STA  (INTO),Y
        JSR  NEXT
        LDA  BYTE
        STA  (INTO),Y
        JSR  NEXT
        LDA  FROM
        BNE  PACK
        TYA
        STA  (INTO),Y
        LDA  #$00
        STA  FROM
        LDA  #$11
        STA  FROM+1
        LDA  #$00
        STA  INTO
        LDA  #$10
        STA  INTO+1
OPEN    LDA  (FROM),Y
        BEQ  ENDED
        STA  RUN
        INC  FROM
        LDA  (FROM),Y
        INC  FROM
        LDX  RUN
PUT     STA  (INTO),Y
        INC  INTO
        DEX
        BNE  PUT
        JMP  OPEN
ENDED   INC  $1000
        JMP  AGAIN
NEXT    INC  INTO
        BNE  LEAVE
        INC  INTO+1
LEAVE   RTS
