* strings: words are compared with one another, and the larger of each two is copied
ONE     EQU  $06
OTHER   EQU  $08
TARGET  EQU  $0A
FIRST   EQU  $0C
SECOND  EQU  $0D
        ORG  $0800
        LDA  #0
        STA  FIRST
OUTER   LDA  #0
        STA  SECOND
INNER   LDX  FIRST
        LDA  LOWS,X
        STA  ONE
        LDA  HIGHS,X
        STA  ONE+1
        LDX  SECOND
        LDA  LOWS,X
        STA  OTHER
        LDA  HIGHS,X
        STA  OTHER+1
        LDY  #0
COMPARE LDA  (ONE),Y
        CMP  (OTHER),Y
        BNE  DIFFER
        CMP  #0
        BEQ  SAME
        INY
        BNE  COMPARE
DIFFER  BCS  LARGER
        LDA  OTHER
        LDX  OTHER+1
        BCC  COPY
LARGER  LDA  ONE
        LDX  ONE+1
COPY    STA  TARGET
        STX  TARGET+1
        LDY  #0
MOVE    LDA  (TARGET),Y
        STA  $1000,Y
        BEQ  SAME
        INY
        BNE  MOVE
SAME    INC  SECOND
        LDA  SECOND
        CMP  #6
        BNE  INNER
        INC  FIRST
        LDA  FIRST
        CMP  #6
        BNE  OUTER
        LDA  #0
        STA  FIRST
        JMP  OUTER
WORDA   ASC  "ASSEMBLER"
        DFB  0
WORDB   ASC  "ASSEMBLY"
        DFB  0
WORDC   ASC  "ACCUMULATOR"
        DFB  0
WORDD   ASC  "STACK"
        DFB  0
WORDE   ASC  "STACKED"
        DFB  0
WORDF   ASC  "REGISTER"
        DFB  0
LOWS    DFB  <WORDA,<WORDB,<WORDC,<WORDD,<WORDE,<WORDF
HIGHS   DFB  >WORDA,>WORDB,>WORDC,>WORDD,>WORDE,>WORDF
