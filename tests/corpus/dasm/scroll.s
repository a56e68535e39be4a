        processor 6502
; SCROLL: moves a text through a row of the screen
HOME     =       $fc58
WAIT     =       $fca8
KEY      =       $c000
STROBE   =       $c010
ROW      =       $0400+$28
FIRST    =       ROW
LAST     =       ROW+39
SPEED    =       60
AT       =       $06
        org     $6000
        mac     delay
        lda     #{1}
        jsr     WAIT
        endm
        mac     move
        lda     {1}
        sta     {2}
        endm
start    subroutine
        jsr     HOME
        lda     #0
        sta     AT
loop     subroutine
        jsr     shift
        ldx     AT
        lda     message,x
        bne     .show
        ldx     #0
        stx     AT
        lda     message
.show    sta     LAST
        inc     AT
        delay   SPEED
        lda     KEY
        bpl     loop
        sta     STROBE
        rts
; SHIFT moves the row one place to the left
shift    subroutine
        ldx     #0
.next    lda     FIRST+1,x
        sta     FIRST,x
        inx
        cpx     #39
        bne     .next
        rts
; SWAP exchanges the ends of the row
swap     move    FIRST, AT+1
        move    LAST, FIRST
        move    AT+1, LAST
        delay   SPEED*2
        rts
pause
        repeat  5
        nop
        repend
        rts
message  subroutine
        hex     d4c8c9d3a0d4c5d8d4a0cdcfd6c5d3a0c6d2cfcda0d2c9c7c8d4a0d4cfa0ccc5c6d4aca0
        hex     d5ced4c9cca0d9cfd5a0d0d2c5d3d3a0c1a0cbc5d9a0aeaeaea0
        dc.b    0
rows     subroutine
        dc.w    $0400, $0480, $0500, $0580
        dc.w    $0600, $0680, $0700, $0780
        dc.w    $0428, $04a8, $0528, $05a8
