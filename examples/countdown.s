; Counts down from 9 to 0 in one place of the screen, a second a digit: CYCLES divided by 1,023,000 is the time in seconds
; on a real Apple II, but for what COUT takes there.
COUT EQU $FDED
HOME EQU $FC58
WAIT EQU $FCA8
CH EQU $24        ; the cursor's column
 ORG $300
 JSR HOME
 LDX #9
NEXT LDA #0
 STA CH           ; back over the digit before
 TXA
 ORA #"0"         ; "0" is $B0: its low four bits are free for the digit
 JSR COUT
 LDY #6           ; six times
PAUSE LDA #0      ; WAIT's longest: 167,293 cycles
 JSR WAIT
 DEY
 BNE PAUSE
 DEX
 BPL NEXT
 RTS
