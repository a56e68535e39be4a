; Shows the flags after some instructions: the letter of each flag that is set, and a dot for one that is not.
COUT EQU $FDED
CROUT EQU $FD8E
BITS EQU $06
 ORG $300
 LDA #0
 PHA
 PLP              ; no flag is set: on a real machine nothing says how they are at the start
 LDA #0           ; Z
 JSR SHOW
 LDA #$80         ; N
 JSR SHOW
 NOP              ; changes no flag: those that PLP left
 JSR SHOW
 CMP #1           ; C: $80 is not below 1
 JSR SHOW
 CLC
 LDA #$7F
 ADC #1           ; 127 and 1 are past 127: N and V
 BVS OVER
 BRK              ; never reached; it would stop the run
OVER JSR SHOW
 CLV              ; V goes, N stays
 JSR SHOW
 SED              ; D and I stay until they are taken back
 SEI
 JSR SHOW
 CLD
 CLI
 JSR SHOW
 LDA #>HERE       ; RTI pulls the flags, and then an address
 PHA
 LDA #<HERE
 PHA
 LDA #%01000001   ; V and C
 PHA
 RTI
HERE JSR SHOW
 TSX              ; S as a signed byte: N
 JSR SHOW
 TXS              ; changes no flag
 RTS
; Shows the flags, and leaves them and A as they were.
SHOW PHP
 PHA
 TXA
 PHA
 CLD              ; a real Monitor adds in binary
 TSX
 LDA $103,X       ; the flags: A and X lie on them
 STA BITS
 LDX #0
FLAG LDA #"."
 ASL BITS         ; puts the next flag into C
 BCC CLEAR
 LDA NAMES,X
CLEAR JSR COUT
 INX
 CPX #8
 BNE FLAG
 JSR CROUT
 PLA
 TAX
 PLA
 PLP
 RTS
NAMES ASC "NV1BDIZC"
