         LST   OFF
* DUMP: lists memory in rows of eight bytes
COUT     EQU   $FDED
CROUT    EQU   $FD8E
PRBYTE   EQU   $FDDA
PRBLNK   EQU   $F948
         DUM   $3C
A1       DS    2
A2       DS    2
         DEND
PERROW   =     8
ASCII    =     1
         ORG   $1000
DUMP     LDA   #<DATA
         STA   A1
         LDA   #>DATA
         STA   A1+1
         LDA   #<DATAEND
         STA   A2
         LDA   #>DATAEND
         STA   A2+1
ROW      LDA   A1+1
         JSR   PRBYTE
         LDA   A1
         JSR   PRBYTE
         LDA   #"-"
         JSR   COUT
         LDY   #0
:BYTE    LDA   #" "
         JSR   COUT
         LDA   (A1),Y
         JSR   PRBYTE
         INY
         CPY   #PERROW
         BNE   :BYTE
         DO    ASCII
         JSR   PRBLNK
         LDY   #0
:CHAR    LDA   (A1),Y
         ORA   #$80
         CMP   #$A0
         BCS   :GOOD
         LDA   #"."
:GOOD    JSR   COUT
         INY
         CPY   #PERROW
         BNE   :CHAR
         FIN
         JSR   CROUT
         CLC
         LDA   A1
         ADC   #PERROW
         STA   A1
         BCC   :SAME
         INC   A1+1
:SAME    LDA   A1
         CMP   A2
         LDA   A1+1
         SBC   A2+1
         BCC   ROW
         RTS
DATA     ASC   'MEMORY OF 1977'
         DFB   0,1,2,$FF
         ASC   "HIGH TEXT"
         HEX   20EDFD60A9C1
DATAEND  DFB   0
         DS    8
VECTOR   DA    DUMP,ROW,DATA,DATAEND
         DFB   <DUMP,>DUMP,<DATA+1,>DATA+256
