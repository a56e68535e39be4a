1000 * DUMP: LISTS MEMORY IN ROWS OF EIGHT BYTES
1010 COUT     .EQ $FDED
1020 CROUT    .EQ $FD8E
1030 PRBYTE   .EQ $FDDA
1040 PRBLNK   .EQ $F948
1050          .DUMMY
1060          .OR $3C
1070 A1       .BS 2
1080 A2       .BS 2
1090          .ED
1100 PERROW   .EQ 8
1110 ASCII    .EQ 1
1120          .OR $1000
1130 DUMP     LDA #DATA
1140          STA A1
1150          LDA /DATA
1160          STA A1+1
1170          LDA #DATAEND
1180          STA A2
1190          LDA /DATAEND
1200          STA A2+1
1210 ROW      LDA A1+1
1220          JSR PRBYTE
1230          LDA A1
1240          JSR PRBYTE
1250          LDA #"-
1260          JSR COUT
1270          LDY #0
1280 .1       LDA #" "
1290          JSR COUT
1300          LDA (A1),Y
1310          JSR PRBYTE
1320          INY
1330          CPY #PERROW
1340          BNE .1
1350          .DO ASCII
1360          JSR PRBLNK
1370          LDY #0
1380 .2       LDA (A1),Y
1390          ORA #$80
1400          CMP #$A0
1410          BCS .3
1420          LDA #".
1430 .3       JSR COUT
1440          INY
1450          CPY #PERROW
1460          BNE .2
1470          .FIN
1480          JSR CROUT
1490          CLC
1500          LDA A1
1510          ADC #PERROW
1520          STA A1
1530          BCC .4
1540          INC A1+1
1550 .4       LDA A1
1560          CMP A2
1570          LDA A1+1
1580          SBC A2+1
1590          BCC ROW
1600          RTS
1610 DATA     .AS /MEMORY OF 1977/
1620          .DA #0,#1,#2,#$FF
1630          .AS -"HIGH TEXT"
1640          .HS 20EDFD60A9C1
1650 DATAEND  .DA #0
1660          .BS 8
1670 VECTOR   .DA DUMP,ROW,DATA,DATAEND
1680          .DA #DUMP,/DUMP,#DATA+1,/DATA+256
1690          .EN
