* text: lengths, capitals and a comparison of texts
FROM    EQU  $06
INTO    EQU  $2000
COUNT   EQU  $08
UNLIKE  EQU  $09
        ORG  $0800
AGAIN   LDA  #<TEXT
        STA  FROM
        LDA  #>TEXT
        STA  FROM+1
        LDY  #0
COPY    LDA  (FROM),Y
        BEQ  DONE
        CMP  #$E1         ; a small letter
        BCC  PUT
        CMP  #$FB
        BCS  PUT
        AND  #$DF
PUT     STA  INTO,Y
        INY
        BNE  COPY
DONE    STA  INTO,Y
        STY  COUNT
        LDX  #0
SAME    LDA  INTO,X
        CMP  TEXT,X
        BEQ  ALIKE
        INC  UNLIKE
ALIKE   INX
        CPX  COUNT
        BCC  SAME
        JMP  AGAIN
TEXT    ASC  "Now is the time for all good men to come to the aid of the party, and 1977 is the year of it."
        DFB  0
