; DUMP: lists memory in rows of eight bytes
COUT     EQU   $FDED
CROUT    EQU   $FD8E
PRBYTE   EQU   $FDDA
PRBLNK   EQU   $F948
A1       EPZ   $3C
A2       EPZ   $3E
PERROW   EQU   8
ASCII    EQU   1
         ORG   $1000
DUMP     LDA   #DATA
         STA   A1
         LDA   /DATA
         STA   A1+1
         LDA   #DATAEND
         STA   A2
         LDA   /DATAEND
         STA   A2+1
ROW      LDA   A1+1
         JSR   PRBYTE
         LDA   A1
         JSR   PRBYTE
         LDA   #"-"
         JSR   COUT
         LDY   #0
ROWBYTE  LDA   #" "
         JSR   COUT
         LDA   (A1),Y
         JSR   PRBYTE
         INY
         CPY   #PERROW
         BNE   ROWBYTE
         .IF   ASCII
         JSR   PRBLNK
         LDY   #0
ROWCHAR  LDA   (A1),Y
         ORA   #$80
         CMP   #$A0
         BCS   ROWGOOD
         LDA   #"."
ROWGOOD  JSR   COUT
         INY
         CPY   #PERROW
         BNE   ROWCHAR
         .FI
         JSR   CROUT
         CLC
         LDA   A1
         ADC   #PERROW
         STA   A1
         BCC   ROWSAME
         INC   A1+1
ROWSAME  LDA   A1
         CMP   A2
         LDA   A1+1
         SBC   A2+1
         BCC   ROW
         RTS
DATA     ASC   'MEMORY OF 1977'
         BYT   0,1,2,$FF
         ASC   "HIGH TEXT"
         HEX   20EDFD60A9C1
DATAEND  BYT   0
         DFS   8
VECTOR   ADR   DUMP,ROW,DATA,DATAEND
         BYT   DUMP
         HBY   DUMP
         BYT   DATA+1
         HBY   DATA+256
         END
