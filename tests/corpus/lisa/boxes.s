; BOXES: blocks in low resolution, from a table of shapes
GR       EQU   $FB40
PLOT     EQU   $F800
COLOR    EPZ   $30
HLINE    EQU   $F819
H2       EPZ   $2C
LEFT     EPZ   $08
TOP      EPZ   $09
WIDE     EPZ   $0A
HIGH     EPZ   $0B
HUE      EPZ   $0C
SHAPES   EQU   5
FIELDS   EQU   5
FILL     EQU   1
         ORG   $0900
BOXES    JSR   GR
         LDX   #0
BOXESSHAPE LDY   #0
BOXESCOPY LDA   TABLE,X
         STA   LEFT,Y
         INX
         INY
         CPY   #FIELDS
         BNE   BOXESCOPY
         TXA
         PHA
         JSR   BOX
         PLA
         TAX
         CPX   #SHAPES*FIELDS
         BNE   BOXESSHAPE
         RTS
; BOX draws one box
BOX      LDA   HUE
         JSR   PAINT
BOXROW   LDY   LEFT
         TYA
         CLC
         ADC   WIDE
         STA   H2
         LDA   TOP
         .IF   FILL
         JSR   HLINE
         .EL
         JSR   PLOT
         .FI
         INC   TOP
         DEC   HIGH
         BNE   BOXROW
         RTS
; PAINT sets the colour of both halves
PAINT    STA   COLOR
         ASL
         ASL
         ASL
         ASL
         ORA   COLOR
         STA   COLOR
         RTS
TABLE    BYT   0,0,9,10,1
         BYT   12,4,7,20,6
         BYT   22,10,3,3,9
         BYT   28,2,10,30,13
         BYT   4,30,20,8,12
NAMES    ASC   'red green orange yellow'
         BYT   0
COLORS   BYT   1,2,3,4,5,6,7,8
         BYT   9,10,11,12,13,14,15
         BYT   $FF,0
         BYT   $FF,0
         BYT   $FF,0
         BYT   $FF,0
EXIT     JMP   BOXES
         END
