; DUMP: lists memory in rows of eight bytes
COUT     =       $fded
CROUT    =       $fd8e
PRBYTE   =       $fdda
PRBLNK   =       $f948
        .virtual $3c
A1       .fill   2
A2       .fill   2
        .endv
PERROW   =       8
ASCII    =       1
        * = $1000
dump     lda     #<data
        sta     A1
        lda     #>data
        sta     A1+1
        lda     #<dataend
        sta     A2
        lda     #>dataend
        sta     A2+1
row      lda     A1+1
        jsr     PRBYTE
        lda     A1
        jsr     PRBYTE
        lda     #'-'|$80
        jsr     COUT
        ldy     #0
_byte    lda     #' '|$80
        jsr     COUT
        lda     (A1),y
        jsr     PRBYTE
        iny
        cpy     #PERROW
        bne     _byte
        .if     ASCII
        jsr     PRBLNK
        ldy     #0
_char    lda     (A1),y
        ora     #$80
        cmp     #$a0
        bcs     _good
        lda     #'.'|$80
_good    jsr     COUT
        iny
        cpy     #PERROW
        bne     _char
        .fi
        jsr     CROUT
        clc
        lda     A1
        adc     #PERROW
        sta     A1
        bcc     _same
        inc     A1+1
_same    lda     A1
        cmp     A2
        lda     A1+1
        sbc     A2+1
        bcc     row
        rts
data     .text   "MEMORY OF 1977"
        .byte   0, 1, 2, $ff
        .byte   $c8,$c9,$c7,$c8,$a0,$d4,$c5,$d8,$d4
        .byte   $20,$ED,$FD,$60,$A9,$C1
dataend  .byte   0
        .fill   8, 0
vector   .word   dump, row, data, dataend
        .byte   <dump, >dump, <data+1, >data+256
