; Shows its own bytes in the form in which ./a2 asm examples/dump.s writes them.
COUT EQU $FDED
CROUT EQU $FD8E
PRBYTE EQU $FDDA
 ORG $300
START LDX #0      ; how many bytes were shown
LINE LDA #>START
 JSR PRBYTE
 TXA              ; the address's low byte too, for START's is 0
 JSR PRBYTE
 LDA #":"
 JSR COUT
BYTE LDA START,X
 JSR PRBYTE
 INX
 CPX #END-START
 BEQ DONE
 TXA
 AND #7           ; 0 after each eight bytes
 BEQ RETURN
 LDA #" "
 JSR COUT
 JMP BYTE         ; no branch by the flags: a real COUT does not keep them
RETURN JSR CROUT
 JMP LINE
DONE RTS
END               ; the address after the last byte
