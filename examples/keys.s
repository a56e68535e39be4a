; Reads the keyboard without a service, and shows each key as its code and its character, up to a RETURN:
; ./a2 run examples/keys.s --keys 'A1?\r'
COUT EQU $FDED
CROUT EQU $FD8E
PRBYTE EQU $FDDA
KEYBOARD EQU $C000  ; bit 7 is set while a key waits
STROBE EQU $C010    ; any access takes the key
RETURN EQU $8D
 ORG $300
NEXT LDA KEYBOARD
 BPL NEXT         ; without a key this goes on to the step limit
 BIT STROBE       ; A stays
 CMP #RETURN
 BEQ DONE
 PHA
 JSR PRBYTE
 LDA #" "
 JSR COUT
 PLA
 JSR COUT
 JSR CROUT
 JMP NEXT
DONE RTS
