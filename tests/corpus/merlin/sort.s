         LST   OFF
* SORT: sorts a table of bytes and prints it
COUT     EQU   $FDED
CROUT    EQU   $FD8E
PRBYTE   EQU   $FDDA
         DUM   $06
SWAPS    DS    1
LEFT     DS    1
SAVE     DS    1
         DEND
ORDER    =     0
         ORG   $6000
MAIN     JSR   SHOW
         JSR   SORT
         JSR   SHOW
         RTS
SORT     LDA   #SIZE-1
         STA   LEFT
:PASS    LDA   #0
         STA   SWAPS
         LDX   #0
:PAIR    LDA   TABLE,X
         CMP   TABLE+1,X
         DO    ORDER
         BCS   :GOOD
         ELSE
         BCC   :GOOD
         BEQ   :GOOD
         FIN
         PHA
         LDA   TABLE+1,X
         STA   TABLE,X
         PLA
         STA   TABLE+1,X
         INC   SWAPS
:GOOD    INX
         CPX   LEFT
         BCC   :PAIR
         LDA   SWAPS
         BEQ   :DONE
         DEC   LEFT
         BNE   :PASS
:DONE    RTS
* SHOW prints all bytes of the table
SHOW     LDX   #0
:NEXT    LDA   TABLE,X
         STX   SAVE
         JSR   PRBYTE
         LDA   #$A0
         JSR   COUT
         LDX   SAVE
         INX
         CPX   #SIZE
         BNE   :NEXT
         JMP   CROUT
TABLE    DFB   17,4,255,$80,99,3
         DFB   42,200,7,$10,1,150
         DFB   60,61,$7F,$C1
TABEND   DFB   0
SIZE     =     16
         DS    4
         DA    TABLE,TABEND,MAIN
