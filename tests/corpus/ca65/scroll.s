        .setcpu "6502"
; SCROLL: moves a text through a row of the screen
HOME     =       $fc58
WAIT     =       $fca8
KEY      =       $c000
STROBE   =       $c010
ROW      =       $0400+$28
FIRST    =       ROW
LAST     =       ROW+39
SPEED    =       60
AT       =       $06
        .org    $6000
        .macro  delay time
        lda     #time
        jsr     WAIT
        .endmacro
        .macro  move from, to
        lda     from
        sta     to
        .endmacro
start:   jsr     HOME
        lda     #0
        sta     AT
loop:    jsr     shift
        ldx     AT
        lda     message,x
        bne     @show
        ldx     #0
        stx     AT
        lda     message
@show:   sta     LAST
        inc     AT
        delay   SPEED
        lda     KEY
        bpl     loop
        sta     STROBE
        rts
; SHIFT moves the row one place to the left
shift:   ldx     #0
@next:   lda     FIRST+1,x
        sta     FIRST,x
        inx
        cpx     #39
        bne     @next
        rts
; SWAP exchanges the ends of the row
swap:    move    FIRST, AT+1
        move    LAST, FIRST
        move    AT+1, LAST
        delay   SPEED*2
        rts
pause:
        .repeat 5
        nop
        .endrepeat
        rts
message: .byte   $d4,$c8,$c9,$d3,$a0,$d4,$c5,$d8,$d4,$a0,$cd,$cf,$d6,$c5,$d3,$a0,$c6,$d2,$cf,$cd,$a0,$d2,$c9,$c7,$c8,$d4,$a0,$d4,$cf,$a0,$cc,$c5,$c6,$d4,$ac,$a0
        .byte   $d5,$ce,$d4,$c9,$cc,$a0,$d9,$cf,$d5,$a0,$d0,$d2,$c5,$d3,$d3,$a0,$c1,$a0,$cb,$c5,$d9,$a0,$ae,$ae,$ae,$a0
        .byte   0
rows:    .word   $0400, $0480, $0500, $0580
        .word   $0600, $0680, $0700, $0780
        .word   $0428, $04a8, $0528, $05a8
