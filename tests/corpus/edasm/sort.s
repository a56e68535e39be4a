         MSB   ON
         LST   OFF
* SORT: SORTS A TABLE OF BYTES AND PRINTS IT
COUT     EQU   $FDED
CROUT    EQU   $FD8E
PRBYTE   EQU   $FDDA
         DSECT
         ORG   $06
SWAPS    DS    1
LEFT     DS    1
SAVE     DS    1
         DEND
ORDER    EQU   0
         ORG   $6000
MAIN     JSR   SHOW
         JSR   SORT
         JSR   SHOW
         RTS
SORT     LDA   #SIZE-1
         STA   LEFT
SORTPASS LDA   #0
         STA   SWAPS
         LDX   #0
SORTPAIR LDA   TABLE,X
         CMP   TABLE+1,X
         DO    ORDER
         BCS   SORTGOOD
         ELSE
         BCC   SORTGOOD
         BEQ   SORTGOOD
         FIN
         PHA
         LDA   TABLE+1,X
         STA   TABLE,X
         PLA
         STA   TABLE+1,X
         INC   SWAPS
SORTGOOD INX
         CPX   LEFT
         BCC   SORTPAIR
         LDA   SWAPS
         BEQ   SORTDONE
         DEC   LEFT
         BNE   SORTPASS
SORTDONE RTS
* SHOW PRINTS ALL BYTES OF THE TABLE
SHOW     LDX   #0
SHOWNEXT LDA   TABLE,X
         STX   SAVE
         JSR   PRBYTE
         LDA   #$A0
         JSR   COUT
         LDX   SAVE
         INX
         CPX   #SIZE
         BNE   SHOWNEXT
         JMP   CROUT
TABLE    DFB   17,4,255,$80,99,3
         DFB   42,200,7,$10,1,150
         DFB   60,61,$7F,$C1
TABEND   DFB   0
SIZE     EQU   16
         DS    4
         DW    TABLE,TABEND,MAIN
