* dates: the day of the week of each day of many years, counted by months
DAY     EQU  $06
MONTH   EQU  $07
YEAR    EQU  $08
WEEK    EQU  $0A
LENGTH  EQU  $0B
COUNTS  EQU  $1000
        ORG  $0800
        LDA  #0
        STA  YEAR
        STA  YEAR+1
        STA  WEEK
ANEW    LDX  #0
        STX  MONTH
EACH    LDX  MONTH
        LDA  LENGTHS,X
        CPX  #1
        BNE  KNOWN
        LDA  YEAR
        AND  #3
        TAY
        LDA  #28
        CPY  #0
        BNE  KNOWN
        LDA  #29
KNOWN   STA  LENGTH
        LDA  #1
        STA  DAY
TURN    LDX  WEEK
        INC  COUNTS,X
        INX
        CPX  #7
        BCC  SAME
        LDX  #0
SAME    STX  WEEK
        INC  DAY
        LDA  LENGTH
        CMP  DAY
        BCS  TURN
        INC  MONTH
        LDA  MONTH
        CMP  #12
        BNE  EACH
        INC  YEAR
        BNE  ANEW
        INC  YEAR+1
        JMP  ANEW
LENGTHS DFB  31,28,31,30,31,30,31,31,30,31,30,31
