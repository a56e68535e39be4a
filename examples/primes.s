; The primes below 100, in hexadecimal: each number is divided by the primes that were found before it.
COUT EQU $FDED
PRBYTE EQU $FDDA
N EQU $06         ; the number
FOUND EQU $07     ; how many primes were found
TABLE EQU $1000   ; the primes
 ORG $300
 LDA #2
 STA N
 LDA #0
 STA FOUND
NEXT LDX #0
TRY CPX FOUND
 BEQ PRIME
 LDA N
REST SEC
 SBC TABLE,X
 BEQ LATER        ; divided
 BCS REST
 INX
 BNE TRY
PRIME LDX FOUND
 LDA N
 STA TABLE,X
 INC FOUND
 JSR PRBYTE
 LDA #" "
 JSR COUT
LATER INC N
 LDA N
 CMP #100
 BNE NEXT
 RTS
