* crc: the CRC of a page by $1021, bit by bit
LOW     EQU  $06
HIGH    EQU  $07
PAGE    EQU  $1000
        ORG  $0800
        LDX  #0
FILL    TXA
        STA  PAGE,X
        INX
        BNE  FILL
AGAIN   LDA  #$FF
        STA  LOW
        STA  HIGH
        LDX  #0
BYTE    LDA  PAGE,X
        EOR  HIGH
        STA  HIGH
        LDY  #8
NEXT    ASL  LOW
        ROL  HIGH
        BCC  NONE
        LDA  LOW
        EOR  #$21
        STA  LOW
        LDA  HIGH
        EOR  #$10
        STA  HIGH
NONE    DEY
        BNE  NEXT
        INX
        BNE  BYTE
        JMP  AGAIN
