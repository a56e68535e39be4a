* search: a word of four letters is looked for at each place of a page
PLACE   EQU  $06
FOUND   EQU  $07
TEXT    EQU  $1000
        ORG  $0800
        LDX  #0
FILL    TXA
        AND  #7
        ORA  #$C0
        STA  TEXT,X
        INX
        BNE  FILL
AGAIN   LDX  #0
FROM    LDY  #0
        STX  PLACE
LETTER  LDA  TEXT,X
        CMP  WORD,Y
        BNE  ON
        INX
        INY
        CPY  #4
        BNE  LETTER
        INC  FOUND
ON      LDX  PLACE
        INX
        BNE  FROM
        JMP  AGAIN
WORD    DFB  $C3,$C4,$C5,$C6
