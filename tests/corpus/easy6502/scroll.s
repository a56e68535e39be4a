; SCROLL: moves a text through a row of the screen
define HOME $fc58
define WAIT $fca8
define KEY $c000
define STROBE $c010
define ROW $0400+$28
define FIRST ROW
define LAST ROW+39
define SPEED 60
define AT $06
*=$6000
start:   jsr     HOME
        lda     #0
        sta     AT
loop:    jsr     shift
        ldx     AT
        lda     message,x
        bne     loopshow
        ldx     #0
        stx     AT
        lda     message
loopshow: sta     LAST
        inc     AT
        lda     #SPEED
        jsr     WAIT
        lda     KEY
        bpl     loop
        sta     STROBE
        rts
; SHIFT moves the row one place to the left
shift:   ldx     #0
shiftnext: lda     FIRST+1,x
        sta     FIRST,x
        inx
        cpx     #39
        bne     shiftnext
        rts
; SWAP exchanges the ends of the row
swap:
        lda     FIRST
        sta     AT+1
        lda     LAST
        sta     FIRST
        lda     AT+1
        sta     LAST
        lda     #SPEED*2
        jsr     WAIT
        rts
pause:
        nop
        nop
        nop
        nop
        nop
        rts
message: dcb     $d4,$c8,$c9,$d3,$a0,$d4,$c5,$d8,$d4,$a0,$cd,$cf,$d6,$c5,$d3,$a0,$c6,$d2,$cf,$cd,$a0,$d2,$c9,$c7,$c8,$d4,$a0,$d4,$cf,$a0,$cc,$c5,$c6,$d4,$ac,$a0
        dcb     $d5,$ce,$d4,$c9,$cc,$a0,$d9,$cf,$d5,$a0,$d0,$d2,$c5,$d3,$d3,$a0,$c1,$a0,$cb,$c5,$d9,$a0,$ae,$ae,$ae,$a0
        dcb     0
rows:    dcb     <$0400, >$0400, <$0480, >$0480, <$0500, >$0500, <$0580, >$0580
        dcb     <$0600, >$0600, <$0680, >$0680, <$0700, >$0700, <$0780, >$0780
        dcb     <$0428, >$0428, <$04a8, >$04a8, <$0528, >$0528, <$05a8, >$05a8
