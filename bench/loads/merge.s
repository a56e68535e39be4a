* merge: two tables that are in order become one, each time of other numbers
STEP    EQU  $06
INTO    EQU  $07
FROM    EQU  $08
LEFT    EQU  $1000
RIGHT   EQU  $1080
BOTH    EQU  $1100
        ORG  $0800
        LDA  #1
        STA  STEP
BEGIN   LDX  #0
        LDA  #0
FILL    STA  LEFT,X
        CLC
        ADC  STEP
        BCC  KEEP
        LDA  #$FF
KEEP    STA  RIGHT,X
        INX
        BPL  FILL
        LDX  #0
        LDY  #0
        STX  INTO
NEXT    CPX  #128
        BEQ  REST
        CPY  #128
        BEQ  LEAST
        LDA  LEFT,X
        CMP  RIGHT,Y
        BCS  TAKE
LEAST   LDA  LEFT,X
        INX
        JMP  PUT
REST    CPY  #128
        BEQ  DONE
TAKE    LDA  RIGHT,Y
        INY
PUT     STX  FROM
        LDX  INTO
        STA  BOTH,X
        INC  INTO
        LDX  FROM
        JMP  NEXT
DONE    INC  STEP
        JMP  BEGIN
