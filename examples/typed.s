; Keys from a table, and when it is at its end from the keyboard. RDKEY goes on where the two bytes of KSW say: at KEYIN,
; which takes a key, or at a routine of one's own that answers a byte in A.
; ./a2 run examples/typed.s --keys 'AND SO ON.\r'
RDKEY EQU $FD0C
KEYIN EQU $FD1B
COUT EQU $FDED
KSW EQU $38       ; two bytes, the low one first
AT EQU $06        ; how many keys of the table were taken
SAVED EQU $07     ; A, and after it X
RETURN EQU $8D
 ORG $300
 LDA #0
 STA AT
 LDA #<TYPED
 STA KSW
 LDA #>TYPED
 STA KSW+1
NEXT JSR RDKEY
 CMP #RETURN
 BEQ DONE
 JSR COUT         ; on a real Apple II over the cursor that RDKEY shows
 JMP NEXT
DONE RTS
; X and Y have to stay: whoever calls RDKEY relies on them.
TYPED STA SAVED   ; a real RDKEY hands on what is under its cursor, and KEYIN puts it back
 STX SAVED+1
 LDX AT
 LDA KEYS,X
 BEQ EMPTY
 INC AT
 LDX SAVED+1
 RTS
EMPTY LDA #<KEYIN ; from here on the keyboard itself
 STA KSW
 LDA #>KEYIN
 STA KSW+1
 LDX SAVED+1
 LDA SAVED
 JMP KEYIN
KEYS ASC "TYPED BY A TABLE, "
 DFB 0
