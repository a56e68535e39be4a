; Counts from 00 to 99 in decimal, ten numbers a row. There is no decimal mode here: with D set, ADC and SBC stop the
; run by DECIMAL. So each digit is a byte of its own, kept as the character that is shown.
COUT EQU $FDED
CROUT EQU $FD8E
TENS EQU $06
ONES EQU $07
 ORG $300
 LDA #"0"
 STA TENS
NEXTROW LDA #"0"
 STA ONES
NEXT LDA TENS
 JSR COUT
 LDA ONES
 JSR COUT
 LDA #" "
 JSR COUT
 INC ONES
 LDA ONES
 CMP #"9"+1       ; past the digit 9?
 BNE NEXT
 JSR CROUT
 INC TENS         ; the carry into the tens
 LDA TENS
 CMP #"9"+1
 BNE NEXTROW
 RTS
