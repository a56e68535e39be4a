; Fills the first row of the screen.
COUT EQU $FDED
 ORG $300
 LDX #40
 LDA #"B"
L JSR COUT
 DEX
 BNE L
 RTS
