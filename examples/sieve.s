; The sieve of Eratosthenes below 256: 16 rows of 16 numbers, 0 at the top left, with a * for each prime.
COUT EQU $FDED
CROUT EQU $FD8E
PRIME EQU $06
SIEVE EQU $1000   ; a byte a number: 0 as long as no factor was found
 ORG $300
 LDA #0
 TAX
CLEAR STA SIEVE,X ; RAM of a real machine holds anything at the start
 INX
 BNE CLEAR
 LDA #1
 STA SIEVE        ; 0 and 1 are no primes
 STA SIEVE+1
 LDX #2
TRY LDA SIEVE,X
 BNE NEXT         ; X has a factor
 STX PRIME
 TXA
 CLC
CROSS ADC PRIME   ; the next multiple
 BCS NEXT         ; past 255
 TAY
 STA SIEVE,Y      ; any byte but 0 will do
 BCC CROSS        ; always: TAY and STA leave C alone
NEXT INX
 CPX #16          ; 16 times 16 is past 255
 BNE TRY
 LDX #0
SHOW LDA #"."
 LDY SIEVE,X
 BNE PUT
 LDA #"*"
PUT JSR COUT
 INX
 TXA
 AND #$0F         ; 0 after each 16 numbers
 BNE SHOW
 JSR CROUT
 TXA              ; 0 after 255
 BNE SHOW
 RTS
