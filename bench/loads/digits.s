* digits: each number of 16 bits is written as five decimal digits, by taking away powers of ten
LOW     EQU  $06
HIGH    EQU  $07
RESTLO  EQU  $08
RESTHI  EQU  $09
LESS    EQU  $0A
TEXT    EQU  $1000
        ORG  $0800
        LDA  #0
        STA  LOW
        STA  HIGH
NUMBER  LDA  LOW
        STA  RESTLO
        LDA  HIGH
        STA  RESTHI
        LDX  #4
DIGIT   LDY  #$B0
TAKE    LDA  RESTLO
        SEC
        SBC  POWERLO,X
        STA  LESS
        LDA  RESTHI
        SBC  POWERHI,X
        BCC  KNOWN
        STA  RESTHI
        LDA  LESS
        STA  RESTLO
        INY
        BNE  TAKE
KNOWN   TYA
        STA  TEXT,X
        DEX
        BPL  DIGIT
        INC  LOW
        BNE  NUMBER
        INC  HIGH
        JMP  NUMBER
POWERLO DFB  $01,$0A,$64,$E8,$10
POWERHI DFB  $00,$00,$00,$03,$27
