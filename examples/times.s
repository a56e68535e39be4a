; The times table up to 9 by 9. No instruction multiplies: each product is the one before it, and the row's number more.
COUT EQU $FDED
CROUT EQU $FD8E
ROW EQU $06       ; the row's number, 1 to 9
PRODUCT EQU $07
 ORG $300
 LDA #1
 STA ROW
NEXTROW LDA #0
 STA PRODUCT
 LDY #9           ; nine products
NEXT CLC
 LDA PRODUCT
 ADC ROW
 STA PRODUCT
 JSR TWO
 DEY
 BNE NEXT
 JSR CROUT
 INC ROW
 LDA ROW
 CMP #10
 BNE NEXTROW
 RTS
; Shows a blank and the number in A, 0 to 99, in two places, the first blank below 10. Keeps Y.
TWO PHA
 LDA #" "
 JSR COUT
 PLA
 LDX #"0"         ; the tens
TENS CMP #10
 BCC UNITS
 SBC #10          ; CMP left C set
 INX
 BNE TENS         ; always
UNITS ORA #"0"    ; "0" is $B0: its low four bits are free for the digit
 PHA
 TXA
 CMP #"0"
 BNE SHOW
 LDA #" "
SHOW JSR COUT
 PLA
 JMP COUT         ; COUT returns to the caller of TWO
