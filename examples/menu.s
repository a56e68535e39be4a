; A menu: reads a line, and does what its first letter says, up to Q.
; ./a2 run examples/menu.s --keys 'HELP\rSTARS\r?\rQUIT\r'
GETLN EQU $FD6A
COUT EQU $FDED
CROUT EQU $FD8E
LINE EQU $0200    ; where GETLN leaves the line
PROMPT EQU $33    ; what it puts first
PLACE EQU $06     ; two bytes: where a command begins
CHOICE EQU $08
 ORG $300
 LDA #">"
 STA PROMPT
NEXT JSR GETLN
 LDY #PLACES-LETTERS-1
FIND LDA LETTERS,Y
 CMP LINE
 BEQ FOUND
 DEY
 BPL FIND
 LDX #NONE-TEXTS  ; no such letter
 JSR PRINT
 JMP NEXT
FOUND STY CHOICE
 TYA
 ASL              ; two bytes an address
 TAY
 LDA PLACES,Y
 STA PLACE
 LDA PLACES+1,Y
 STA PLACE+1
 JSR GO
 JMP NEXT
GO JMP (PLACE)    ; the command's RTS continues after JSR GO
; The commands.
HELP LDX #ALL-TEXTS
 JMP PRINT
STARS LDX #20
STAR LDA #"*"
 JSR COUT
 DEX
 BNE STAR
 JMP CROUT
QUIT PLA          ; the return address of JSR GO is dropped,
 PLA              ; so that RTS ends the program
 RTS
; Shows the text X bytes after TEXTS, which ends by 0, and a return.
PRINT LDA TEXTS,X
 BEQ END
 JSR COUT
 INX
 BNE PRINT        ; always: the texts are short
END JMP CROUT
LETTERS ASC "HSQ"
PLACES DW HELP,STARS,QUIT
TEXTS
ALL ASC "HELP, STARS, QUIT"
 DFB 0
NONE ASC "WHAT?"
 DFB 0
