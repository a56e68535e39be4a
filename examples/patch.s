; Fills the screen, three rows at a time, by a store whose address the program changes. Such a program runs free:
; ./a2 run examples/patch.s --free
LETTER EQU $06
 ORG $300
 LDA #"A"
 STA LETTER
 LDY #8           ; eight times 128 bytes
NEXT LDX #119     ; 120 cells, which are three rows; the eight bytes after them are not cells
 LDA LETTER
STORE STA $400,X  ; this address
 DEX
 BPL STORE
 INC LETTER
 CLC
 LDA STORE+1      ; its low byte is after the opcode
 ADC #128
 STA STORE+1
 BCC LATER
 INC STORE+2
LATER DEY
 BNE NEXT
 RTS
