1000 * SORT: SORTS A TABLE OF BYTES AND PRINTS IT
1010 COUT     .EQ $FDED
1020 CROUT    .EQ $FD8E
1030 PRBYTE   .EQ $FDDA
1040          .DUMMY
1050          .OR $06
1060 SWAPS    .BS 1
1070 LEFT     .BS 1
1080 SAVE     .BS 1
1090          .ED
1100 ORDER    .EQ 0
1110          .OR $6000
1120 MAIN     JSR SHOW
1130          JSR SORT
1140          JSR SHOW
1150          RTS
1160 SORT     LDA #SIZE-1
1170          STA LEFT
1180 .1       LDA #0
1190          STA SWAPS
1200          LDX #0
1210 .2       LDA TABLE,X
1220          CMP TABLE+1,X
1230          .DO ORDER
1240          BCS .3
1250          .ELSE
1260          BCC .3
1270          BEQ .3
1280          .FIN
1290          PHA
1300          LDA TABLE+1,X
1310          STA TABLE,X
1320          PLA
1330          STA TABLE+1,X
1340          INC SWAPS
1350 .3       INX
1360          CPX LEFT
1370          BCC .2
1380          LDA SWAPS
1390          BEQ .4
1400          DEC LEFT
1410          BNE .1
1420 .4       RTS
1430 * SHOW PRINTS ALL BYTES OF THE TABLE
1440 SHOW     LDX #0
1450 .1       LDA TABLE,X
1460          STX SAVE
1470          JSR PRBYTE
1480          LDA #$A0
1490          JSR COUT
1500          LDX SAVE
1510          INX
1520          CPX #SIZE
1530          BNE .1
1540          JMP CROUT
1550 TABLE    .DA #17,#4,#255,#$80,#99,#3
1560          .DA #42,#200,#7,#$10,#1,#150
1570          .DA #60,#61,#$7F,#$C1
1580 TABEND   .DA #0
1590 SIZE     .EQ 16
1600          .BS 4
1610          .DA TABLE,TABEND,MAIN
1620          .EN
