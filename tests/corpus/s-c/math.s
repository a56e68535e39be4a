1000 * MATH: SUMS AND PRODUCTS OF TWO BYTES
1010 COUT     .EQ $FDED
1020 CROUT    .EQ $FD8E
1030 PRBYTE   .EQ $FDDA
1040          .DUMMY
1050          .OR $06
1060 NUM1     .BS 2
1070 NUM2     .BS 2
1080 ANS      .BS 2
1090 COUNT    .BS 1
1100          .ED
1110 FIRST    .EQ 1234
1120 SECOND   .EQ 567
1130 TESTING  .EQ 1
1140          .OR $4000
1150          .MA ADD16
1160          CLC
1170          LDA ]1
1180          ADC ]2
1190          STA ]3
1200          LDA ]1+1
1210          ADC ]2+1
1220          STA ]3+1
1230          .EM
1240          .MA INC16
1250          INC ]1
1260          BNE :1
1270          INC ]1+1
1280 :1
1290          .EM
1300          .MA SET16
1310          LDA #]2
1320          STA ]1
1330          LDA /]2
1340          STA ]1+1
1350          .EM
1360 MAIN     >SET16 NUM1,FIRST
1370          >SET16 NUM2,SECOND
1380          >ADD16 NUM1,NUM2,ANS
1390          JSR SHOW
1400          >INC16 ANS
1410          >INC16 ANS
1420          JSR SHOW
1430          .DO TESTING
1440          >SET16 NUM1,19
1450          >SET16 NUM2,23
1460          JSR MULT
1470          JSR SHOW
1480          .FIN
1490          RTS
1500 * MULT: ANS IS THE LOW BYTE OF NUM1 TIMES THAT OF NUM2
1510 MULT     LDA #0
1520          STA ANS
1530          STA ANS+1
1540          LDA #8
1550          STA COUNT
1560 .1       ASL ANS
1570          ROL ANS+1
1580          ASL NUM2
1590          BCC .2
1600          CLC
1610          LDA NUM1
1620          ADC ANS
1630          STA ANS
1640          BCC .2
1650          INC ANS+1
1660 .2       DEC COUNT
1670          BNE .1
1680          RTS
1690 SHOW     LDA ANS+1
1700          JSR PRBYTE
1710          LDA ANS
1720          JSR PRBYTE
1730          JMP CROUT
1740 TENS     .DA 10000,1000,100,10,1
1750 SUMS     .DA FIRST+SECOND,FIRST-SECOND
1760          .DA #FIRST/256,#SECOND/256
1770          .EN
