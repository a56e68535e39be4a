; Reads lines and writes each one back, up to an empty line. It wants keys; \b is the left arrow, which takes one back:
; ./a2 run examples/echo.s --keys 'HELLO\rAPPLX\bE\r\r'
GETLN EQU $FD6A
COUT EQU $FDED
CROUT EQU $FD8E
LINE EQU $0200    ; where GETLN leaves the line
LENGTH EQU $06
 ORG $300
NEXT JSR GETLN    ; the length comes in X
 CPX #0
 BEQ DONE
 STX LENGTH
 LDX #0
SHOW LDA LINE,X
 JSR COUT
 INX
 CPX LENGTH
 BNE SHOW
 JSR CROUT
 JMP NEXT
DONE RTS
