         LST   OFF
* BOXES: blocks in low resolution, from a table of shapes
GR       EQU   $FB40
PLOT     EQU   $F800
COLOR    EQU   $30
HLINE    EQU   $F819
H2       EQU   $2C
         DUM   $08
LEFT     DS    1
TOP      DS    1
WIDE     DS    1
HIGH     DS    1
HUE      DS    1
         DEND
SHAPES   =     5
FIELDS   =     5
FILL     =     1
         ORG   $0900
BOXES    JSR   GR
         LDX   #0
:SHAPE   LDY   #0
:COPY    LDA   TABLE,X
         STA   LEFT,Y
         INX
         INY
         CPY   #FIELDS
         BNE   :COPY
         TXA
         PHA
         JSR   BOX
         PLA
         TAX
         CPX   #SHAPES*FIELDS
         BNE   :SHAPE
         RTS
* BOX draws one box
BOX      LDA   HUE
         JSR   PAINT
:ROW     LDY   LEFT
         TYA
         CLC
         ADC   WIDE
         STA   H2
         LDA   TOP
         DO    FILL
         JSR   HLINE
         ELSE
         JSR   PLOT
         FIN
         INC   TOP
         DEC   HIGH
         BNE   :ROW
         RTS
* PAINT sets the colour of both halves
PAINT    STA   COLOR
         ASL
         ASL
         ASL
         ASL
         ORA   COLOR
         STA   COLOR
         RTS
TABLE    DFB   0,0,9,10,1
         DFB   12,4,7,20,6
         DFB   22,10,3,3,9
         DFB   28,2,10,30,13
         DFB   4,30,20,8,12
NAMES    ASC   'red green orange yellow'
         DFB   0
COLORS   DFB   1,2,3,4,5,6,7,8
         DFB   9,10,11,12,13,14,15
         LUP   4
         DFB   $FF,0
         --^
EXIT     JMP   BOXES
