         MSB   ON
         LST   OFF
* DUMP: LISTS MEMORY IN ROWS OF EIGHT BYTES
COUT     EQU   $FDED
CROUT    EQU   $FD8E
PRBYTE   EQU   $FDDA
PRBLNK   EQU   $F948
         DSECT
         ORG   $3C
A1       DS    2
A2       DS    2
         DEND
PERROW   EQU   8
ASCII    EQU   1
         ORG   $1000
DUMP     LDA   #>DATA
         STA   A1
         LDA   #<DATA
         STA   A1+1
         LDA   #>DATAEND
         STA   A2
         LDA   #<DATAEND
         STA   A2+1
ROW      LDA   A1+1
         JSR   PRBYTE
         LDA   A1
         JSR   PRBYTE
         LDA   #$AD
         JSR   COUT
         LDY   #0
ROWBYTE  LDA   #$A0
         JSR   COUT
         LDA   (A1),Y
         JSR   PRBYTE
         INY
         CPY   #PERROW
         BNE   ROWBYTE
         DO    ASCII
         JSR   PRBLNK
         LDY   #0
ROWCHAR  LDA   (A1),Y
         ORA   #$80
         CMP   #$A0
         BCS   ROWGOOD
         LDA   #$AE
ROWGOOD  JSR   COUT
         INY
         CPY   #PERROW
         BNE   ROWCHAR
         FIN
         JSR   CROUT
         CLC
         LDA   A1
         ADC   #PERROW
         STA   A1
         BCC   ROWSAME
         INC   A1+1
ROWSAME  LDA   A1
         CMP   A2
         LDA   A1+1
         SBC   A2+1
         BCC   ROW
         RTS
         MSB   OFF
DATA     ASC   'MEMORY OF 1977'
         MSB   ON
         DFB   0,1,2,$FF
         ASC   "HIGH TEXT"
         DFB   $20,$ED,$FD,$60,$A9,$C1
DATAEND  DFB   0
         DS    8
VECTOR   DW    DUMP,ROW,DATA,DATAEND
         DFB   >DUMP,<DUMP,>DATA+1,<DATA+256
