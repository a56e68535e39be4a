; Tricks: the same as for Merlin, in the words of ca65
        .setcpu "6502"
COUT    = $fded
HOME    = $fc58
WIDTH   = 40
BUFFER  = $0800
CURX    = BUFFER+WIDTH
CURY    = CURX+1
WORDPTR = CURY+1

        .macro  printer from, sign
        .local  next
        .local  last
        ldy     #0
next:   lda     from,y
        beq     last
        jsr     COUT
        iny
        bne     next
last:   lda     #sign
        jsr     COUT
        .endmacro

        .org    $6000
start:  jsr     HOME
        ldx     #0
:       lda     BUFFER,x
        jsr     COUT
        inx
        cpx     #WIDTH
        bcc     :-
        ldy     #0
:       lda     name,y
        beq     :+
        ora     #$80            ; set bit 7
        jsr     COUT
        iny
        bne     :-
:       lda     #>name
        sta     WORDPTR+1
        lda     #<name
        sta     WORDPTR
        lda     CURX
        cmp     #WIDTH-1
        bcs     @wrap
        inc     CURX
        rts
@wrap:  lda     #0
        sta     CURX
        inc     CURY
        printer name, $a1
        printer BUFFER, $8d
        rts
name:   .byte   7, $c3,$cf,$d5,$ce,$d4,$c5,$c4
        .byte   'L'|$80, 'A'|$80, 'S'|$80, 'T'
        .byte   $09,$0e,$16,$05,$12,$13,$05
        .byte   $46,$4c,$41,$53,$48
        .byte   $d7,$c1,$d2,$c4
        .byte   $c2,$d9,$c5,$8d,0
        .byte   $8d,$c2,$d9,$c5,0
        .byte   "plain",$8d,0
        .byte   $f3,$e1,$f9,$a0,$a2,$e8,$e9,$a2
        .byte   $a9,$c1,$20,$ed,$fd
        .dbyt   $1234, start
        .byte   <start, >start, 'A'|$80, 'A', WIDTH*2+1, $ff
        .addr   start, name+WIDTH
        .repeat 8, I
        .byte   I*I
        .endrepeat
        nop
        nop
        nop
        .if     WIDTH-40
        brk
        .else
        rts
        .endif
finish:
SIZE    = finish-start
        .byte   <SIZE, >SIZE
