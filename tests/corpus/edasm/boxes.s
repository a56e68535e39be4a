         MSB   ON
         LST   OFF
* BOXES: BLOCKS IN LOW RESOLUTION, FROM A TABLE OF SHAPES
GR       EQU   $FB40
PLOT     EQU   $F800
COLOR    EQU   $30
HLINE    EQU   $F819
H2       EQU   $2C
         DSECT
         ORG   $08
LEFT     DS    1
TOP      DS    1
WIDE     DS    1
HIGH     DS    1
HUE      DS    1
         DEND
SHAPES   EQU   5
FIELDS   EQU   5
FILL     EQU   1
         ORG   $0900
BOXES    JSR   GR
         LDX   #0
BOXESSHAPE LDY   #0
BOXESCOPY LDA   TABLE,X
         STA   LEFT,Y
         INX
         INY
         CPY   #FIELDS
         BNE   BOXESCOPY
         TXA
         PHA
         JSR   BOX
         PLA
         TAX
         CPX   #SHAPES*FIELDS
         BNE   BOXESSHAPE
         RTS
* BOX DRAWS ONE BOX
BOX      LDA   HUE
         JSR   PAINT
BOXROW   LDY   LEFT
         TYA
         CLC
         ADC   WIDE
         STA   H2
         LDA   TOP
         DO    FILL
         JSR   HLINE
         ELSE
         JSR   PLOT
         FIN
         INC   TOP
         DEC   HIGH
         BNE   BOXROW
         RTS
* PAINT SETS THE COLOUR OF BOTH HALVES
PAINT    STA   COLOR
         ASL
         ASL
         ASL
         ASL
         ORA   COLOR
         STA   COLOR
         RTS
TABLE    DFB   0,0,9,10,1
         DFB   12,4,7,20,6
         DFB   22,10,3,3,9
         DFB   28,2,10,30,13
         DFB   4,30,20,8,12
         MSB   OFF
NAMES    ASC   'red green orange yellow'
         MSB   ON
         DFB   0
COLORS   DFB   1,2,3,4,5,6,7,8
         DFB   9,10,11,12,13,14,15
         DFB   $FF,0
         DFB   $FF,0
         DFB   $FF,0
         DFB   $FF,0
EXIT     JMP   BOXES
