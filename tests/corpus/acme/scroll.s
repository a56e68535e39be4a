        !cpu 6502
; SCROLL: moves a text through a row of the screen
HOME     =       $fc58
WAIT     =       $fca8
KEY      =       $c000
STROBE   =       $c010
ROW      =       $0400+$28
FIRST    =       ROW
LAST     =       ROW+39
SPEED    =       60
AT       =       $06
        * = $6000
        !macro  delay .time {
        lda     #.time
        jsr     WAIT
        }
        !macro  move .from, .to {
        lda     .from
        sta     .to
        }
start    jsr     HOME
        lda     #0
        sta     AT
loop     jsr     shift
        ldx     AT
        lda     message,x
        bne     @show
        ldx     #0
        stx     AT
        lda     message
@show    sta     LAST
        inc     AT
        +delay  SPEED
        lda     KEY
        bpl     loop
        sta     STROBE
        rts
; SHIFT moves the row one place to the left
shift    ldx     #0
@next    lda     FIRST+1,x
        sta     FIRST,x
        inx
        cpx     #39
        bne     @next
        rts
; SWAP exchanges the ends of the row
swap     +move   FIRST, AT+1
        +move   LAST, FIRST
        +move   AT+1, LAST
        +delay  SPEED*2
        rts
pause
        !for i, 1, 5 {
        nop
        }
        rts
message  !xor    $80 { !text "THIS TEXT MOVES FROM RIGHT TO LEFT, " }
        !xor    $80 { !text "UNTIL YOU PRESS A KEY ... " }
        !byte   0
rows     !word   $0400, $0480, $0500, $0580
        !word   $0600, $0680, $0700, $0780
        !word   $0428, $04a8, $0528, $05a8
