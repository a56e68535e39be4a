; Signed numbers, -128 to 127: shows each of a table with its sign, in hexadecimal, and then the least of them.
COUT EQU $FDED
CROUT EQU $FD8E
PRBYTE EQU $FDDA
LEAST EQU $06
SIZE EQU $07
 ORG $300
 LDA TABLE
 STA LEAST
 LDX #0
NEXT LDA TABLE,X
 JSR SHOW
 SEC
 LDA TABLE,X
 SBC LEAST
 BVC RIGHT        ; the difference is from -128 to 127
 EOR #$80         ; else bit 7 is not its sign, but the contrary
RIGHT BPL LATER
 LDA TABLE,X
 STA LEAST
LATER INX
 CPX #END-TABLE
 BNE NEXT
 JSR CROUT
 LDA LEAST
; Shows the signed number in A, and a return. Keeps X.
SHOW CMP #0       ; N is bit 7: the number is negative
 PHP              ; for the sign: what follows changes flags
 BPL POSITIVE
 EOR #$FF         ; minus the number: each bit turned, and 1 added
 CLC
 ADC #1
POSITIVE STA SIZE
 LDA #"-"
 PLP              ; N as it was
 BMI SIGN
 LDA #"+"
SIGN JSR COUT
 LDA SIZE
 JSR PRBYTE
 JMP CROUT
TABLE DFB 5,$FF,$7F,$80,0
END               ; after the table
