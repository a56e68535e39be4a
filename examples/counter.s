; Counts the characters that go out, and passes them to where the hook led before: so several such routines can follow
; one another. The count is shown when the hook is back: a real PRBYTE puts its digits by COUT, and they would count.
COUT EQU $FDED
CROUT EQU $FD8E
PRBYTE EQU $FDDA
CSW EQU $36       ; two bytes, the low one first
OLD EQU $06       ; two bytes: where the hook led before
COUNT EQU $08
 ORG $300
 LDA #0
 STA COUNT
 LDA CSW
 STA OLD
 LDA CSW+1
 STA OLD+1
 LDA #<TALLY
 STA CSW
 LDA #>TALLY
 STA CSW+1
 LDX #0
NEXT LDA TEXT,X
 BEQ DONE
 JSR COUT
 INX
 BNE NEXT         ; always: the text is short
DONE JSR CROUT    ; goes through TALLY too
 LDA OLD
 STA CSW
 LDA OLD+1
 STA CSW+1
 LDA COUNT        ; in hexadecimal
 JMP PRBYTE
TALLY INC COUNT   ; A, X and Y stay
 JMP (OLD)
TEXT ASC "HOW MANY CHARACTERS ARE HERE?"
 DFB 0
