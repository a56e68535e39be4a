        processor 6502
; DUMP: lists memory in rows of eight bytes
COUT     =       $fded
CROUT    =       $fd8e
PRBYTE   =       $fdda
PRBLNK   =       $f948
        seg.u   vars
        org     $3c
A1       ds      2
A2       ds      2
        seg     code
PERROW   =       8
ASCII    =       1
        org     $1000
dump     subroutine
        lda     #<data
        sta     A1
        lda     #>data
        sta     A1+1
        lda     #<dataend
        sta     A2
        lda     #>dataend
        sta     A2+1
row      subroutine
        lda     A1+1
        jsr     PRBYTE
        lda     A1
        jsr     PRBYTE
        lda     #'-|$80
        jsr     COUT
        ldy     #0
.byte    lda     #' |$80
        jsr     COUT
        lda     (A1),y
        jsr     PRBYTE
        iny
        cpy     #PERROW
        bne     .byte
        if      ASCII
        jsr     PRBLNK
        ldy     #0
.char    lda     (A1),y
        ora     #$80
        cmp     #$a0
        bcs     .good
        lda     #'.|$80
.good    jsr     COUT
        iny
        cpy     #PERROW
        bne     .char
        endif
        jsr     CROUT
        clc
        lda     A1
        adc     #PERROW
        sta     A1
        bcc     .same
        inc     A1+1
.same    lda     A1
        cmp     A2
        lda     A1+1
        sbc     A2+1
        bcc     row
        rts
data     subroutine
        dc.b    "MEMORY OF 1977"
        dc.b    0, 1, 2, $ff
        hex     c8c9c7c8a0d4c5d8d4
        hex     20edfd60a9c1
dataend  subroutine
        dc.b    0
        ds      8
vector   subroutine
        dc.w    dump, row, data, dataend
        dc.b    <dump, >dump, <[data+1], >[data+256]
