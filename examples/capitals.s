; Small letters, which a plain Apple II shows as signs and digits, become capitals on their way to the screen. COUT goes on
; where the two bytes of CSW say: at COUT1, which puts the byte, or at a routine of one's own that ends by JMP COUT1.
COUT EQU $FDED
COUT1 EQU $FDF0
CSW EQU $36       ; two bytes, the low one first
 ORG $300
 LDA #<CAPITAL
 STA CSW
 LDA #>CAPITAL
 STA CSW+1
 LDX #0
NEXT LDA TEXT,X
 BEQ DONE
 JSR COUT         ; by way of CAPITAL
 INX
 BNE NEXT         ; always: the text is short
DONE LDA #<COUT1  ; leaves the hook as it was
 STA CSW
 LDA #>COUT1
 STA CSW+1
 RTS
; A byte comes in A. X and Y have to stay: whoever calls COUT relies on them.
CAPITAL CMP #"a"
 BCC SHOW         ; below a: no small letter
 CMP #"z"+1
 BCS SHOW         ; after z
 AND #%11011111   ; the bit that parts small letters from capitals
SHOW JMP COUT1
TEXT ASC "Small letters, shown as Capitals."
 DFB 0
