; SORT: sorts a table of bytes and prints it
COUT     EQU   $FDED
CROUT    EQU   $FD8E
PRBYTE   EQU   $FDDA
SWAPS    EPZ   $06
LEFT     EPZ   $07
SAVE     EPZ   $08
ORDER    EQU   0
         ORG   $6000
MAIN     JSR   SHOW
         JSR   SORT
         JSR   SHOW
         RTS
SORT     LDA   #SIZE-1
         STA   LEFT
SORTPASS LDA   #0
         STA   SWAPS
         LDX   #0
SORTPAIR LDA   TABLE,X
         CMP   TABLE+1,X
         .IF   ORDER
         BCS   SORTGOOD
         .EL
         BCC   SORTGOOD
         BEQ   SORTGOOD
         .FI
         PHA
         LDA   TABLE+1,X
         STA   TABLE,X
         PLA
         STA   TABLE+1,X
         INC   SWAPS
SORTGOOD INX
         CPX   LEFT
         BCC   SORTPAIR
         LDA   SWAPS
         BEQ   SORTDONE
         DEC   LEFT
         BNE   SORTPASS
SORTDONE RTS
; SHOW prints all bytes of the table
SHOW     LDX   #0
SHOWNEXT LDA   TABLE,X
         STX   SAVE
         JSR   PRBYTE
         LDA   #$A0
         JSR   COUT
         LDX   SAVE
         INX
         CPX   #SIZE
         BNE   SHOWNEXT
         JMP   CROUT
TABLE    BYT   17,4,255,$80,99,3
         BYT   42,200,7,$10,1,150
         BYT   60,61,$7F,$C1
TABEND   BYT   0
SIZE     EQU   16
         DFS   4
         ADR   TABLE,TABEND,MAIN
         END
