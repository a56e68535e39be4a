1000 * BOXES: BLOCKS IN LOW RESOLUTION, FROM A TABLE OF SHAPES
1010 GR       .EQ $FB40
1020 PLOT     .EQ $F800
1030 COLOR    .EQ $30
1040 HLINE    .EQ $F819
1050 H2       .EQ $2C
1060          .DUMMY
1070          .OR $08
1080 LEFT     .BS 1
1090 TOP      .BS 1
1100 WIDE     .BS 1
1110 HIGH     .BS 1
1120 HUE      .BS 1
1130          .ED
1140 SHAPES   .EQ 5
1150 FIELDS   .EQ 5
1160 FILL     .EQ 1
1170          .OR $0900
1180 BOXES    JSR GR
1190          LDX #0
1200 .1       LDY #0
1210 .2       LDA TABLE,X
1220          STA LEFT,Y
1230          INX
1240          INY
1250          CPY #FIELDS
1260          BNE .2
1270          TXA
1280          PHA
1290          JSR BOX
1300          PLA
1310          TAX
1320          CPX #SHAPES*FIELDS
1330          BNE .1
1340          RTS
1350 * BOX DRAWS ONE BOX
1360 BOX      LDA HUE
1370          JSR PAINT
1380 .1       LDY LEFT
1390          TYA
1400          CLC
1410          ADC WIDE
1420          STA H2
1430          LDA TOP
1440          .DO FILL
1450          JSR HLINE
1460          .ELSE
1470          JSR PLOT
1480          .FIN
1490          INC TOP
1500          DEC HIGH
1510          BNE .1
1520          RTS
1530 * PAINT SETS THE COLOUR OF BOTH HALVES
1540 PAINT    STA COLOR
1550          ASL
1560          ASL
1570          ASL
1580          ASL
1590          ORA COLOR
1600          STA COLOR
1610          RTS
1620 TABLE    .DA #0,#0,#9,#10,#1
1630          .DA #12,#4,#7,#20,#6
1640          .DA #22,#10,#3,#3,#9
1650          .DA #28,#2,#10,#30,#13
1660          .DA #4,#30,#20,#8,#12
1670 NAMES    .AS "red green orange yellow"
1680          .DA #0
1690 COLORS   .DA #1,#2,#3,#4,#5,#6,#7,#8
1700          .DA #9,#10,#11,#12,#13,#14,#15
1710          .DA #$FF,#0
1720          .DA #$FF,#0
1730          .DA #$FF,#0
1740          .DA #$FF,#0
1750 EXIT     JMP BOXES
1760          .EN
