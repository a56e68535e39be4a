; The powers of two below 65,536 in decimal. DECIMAL finds digits from the right and shows them from the left: it pushes
; each, and pulls them in the other order. Then the stack is as at the call, and its RTS finds the way back.
COUT EQU $FDED
CROUT EQU $FD8E
POWER EQU $06     ; two bytes, the low one first
NUMBER EQU $08    ; likewise
 ORG $300
 LDA #1
 STA POWER
 LDA #0
 STA POWER+1
NEXT LDA POWER
 STA NUMBER
 LDA POWER+1
 STA NUMBER+1
 JSR DECIMAL
 JSR CROUT
 ASL POWER        ; twice as much, over both bytes
 ROL POWER+1
 BCC NEXT
 RTS
; Shows NUMBER in decimal, and leaves 0 there.
DECIMAL LDA #0
 PHA              ; below the digits, to know their end
DIGIT LDA #0      ; divide by 10: A becomes the rest
 LDX #16          ; a bit a turn
TURN ASL NUMBER
 ROL NUMBER+1
 ROL
 CMP #10
 BCC SMALL
 SBC #10          ; CMP left C set
 INC NUMBER       ; a 1 in the quotient, which comes in from the right
SMALL DEX
 BNE TURN
 ORA #"0"
 PHA
 LDA NUMBER
 ORA NUMBER+1
 BNE DIGIT
SHOW PLA
 BEQ DONE
 JSR COUT
 JMP SHOW         ; no branch by the flags: a real COUT does not keep them
DONE RTS
