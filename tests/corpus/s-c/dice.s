1000 * DICE: THROWS TWO DICE FOR EACH KEY, UNTIL Q
1010 COUT     .EQ $FDED
1020 CROUT    .EQ $FD8E
1030 RDKEY    .EQ $FD0C
1040 RNDL     .EQ $4E
1050 RNDH     .EQ $4F
1060 POINTS   .EQ $06
1070 THROWS   .EQ $07
1080 SIDES    .EQ 6
1090 QUIT     .EQ $D1
1100          .OR $0C00
1110          .MA SAY
1120          LDX #]1-TEXTS
1130          JSR PUTS
1140          .EM
1150 DICE     LDA #0
1160          STA THROWS
1170 .1       >SAY ASK
1180          JSR RDKEY
1190          CMP #QUIT
1200          BEQ .2
1210          INC THROWS
1220          JSR THROW
1230          STA POINTS
1240          JSR THROW
1250          CLC
1260          ADC POINTS
1270          STA POINTS
1280          >SAY RESULT
1290          LDA POINTS
1300          JSR DIGITS
1310          JSR CROUT
1320          JMP .1
1330 .2       >SAY BYE
1340          RTS
1350 * THROW RETURNS 1 TO 6 IN A
1360 THROW    LDA RNDL
1370          ASL
1380          ASL
1390          CLC
1400          ADC RNDL
1410          CLC
1420          ADC #17
1430          STA RNDL
1440          EOR RNDH
1450          AND #7
1460          BEQ THROW
1470          CMP #SIDES+1
1480          BCS THROW
1490          RTS
1500 * DIGITS PRINTS A IN DECIMAL, BELOW 100
1510 DIGITS   LDX #0
1520 .1       CMP #10
1530          BCC .2
1540          SBC #10
1550          INX
1560          BNE .1
1570 .2       PHA
1580          TXA
1590          BEQ .3
1600          ORA #"0
1610          JSR COUT
1620 .3       PLA
1630          ORA #"0
1640          JMP COUT
1650 PUTS     LDA TEXTS,X
1660          BEQ .1
1670          JSR COUT
1680          INX
1690          BNE PUTS
1700 .1       RTS
1710 TEXTS    .DA #0
1720 ASK      .AS -"PRESS A KEY, OR Q: "
1730          .DA #0
1740 RESULT   .AS -" YOU THROW "
1750          .DA #0
1760 BYE      .DA #$8D
1770          .AS -"GOODBYE"
1780          .DA #$8D,#0
1790          .EN
