; Caesar's cipher: each letter becomes the third one after it, and X, Y, Z become A, B, C. It reads keys up to a RETURN:
; ./a2 run examples/cipher.s --keys 'VENI, VIDI, VICI XYZ\r'
RDKEY EQU $FD0C
COUT EQU $FDED
RETURN EQU $8D
SHIFT EQU 3
 ORG $300
NEXT JSR RDKEY    ; the key comes in A, with bit 7 set
 CMP #RETURN
 BEQ DONE
 CMP #"A"
 BCC SHOW         ; below A: no letter
 CMP #"Z"+1
 BCS SHOW         ; after Z
 ADC #SHIFT       ; C is clear, since BCS did not branch
 CMP #"Z"+1
 BCC SHOW
 SBC #26          ; past Z, and C is set
SHOW JSR COUT
 JMP NEXT
DONE RTS
