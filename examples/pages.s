; Writes on text page 1, copies it in inverse to page 2, and shows that one. COUT and HOME know only page 1.
; ./a2 run examples/pages.s --attr
COUT EQU $FDED
HOME EQU $FC58
PAGE2 EQU $C055
 ORG $300
 JSR HOME
 LDX #0
CHAR LDA TEXT,X
 BEQ COPY
 JSR COUT
 INX
 BNE CHAR         ; always: the text is short
COPY LDX #0       ; four times 256 bytes
BYTE LDA $400,X
 AND #$3F         ; the same character in inverse
 STA $800,X
 LDA $500,X
 AND #$3F
 STA $900,X
 LDA $600,X
 AND #$3F
 STA $A00,X
 LDA $700,X
 AND #$3F
 STA $B00,X
 INX
 BNE BYTE
 LDA PAGE2        ; any access shows page 2; LDA $C054 shows page 1 again
 RTS
TEXT ASC "WHAT IS WRITTEN ON PAGE 1"
 DFB 0
