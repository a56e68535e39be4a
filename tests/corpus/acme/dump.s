        !cpu 6502
; DUMP: lists memory in rows of eight bytes
COUT     =       $fded
CROUT    =       $fd8e
PRBYTE   =       $fdda
PRBLNK   =       $f948
A1       =       $3c
A2       =       $3e
PERROW   =       8
ASCII    =       1
        * = $1000
dump     lda     #<data
        sta     A1
        lda     #>data
        sta     A1+1
        lda     #<dataend
        sta     A2
        lda     #>dataend
        sta     A2+1
row      lda     A1+1
        jsr     PRBYTE
        lda     A1
        jsr     PRBYTE
        lda     #'-'|$80
        jsr     COUT
        ldy     #0
@byte    lda     #' '|$80
        jsr     COUT
        lda     (A1),y
        jsr     PRBYTE
        iny
        cpy     #PERROW
        bne     @byte
        !if ASCII {
        jsr     PRBLNK
        ldy     #0
@char    lda     (A1),y
        ora     #$80
        cmp     #$a0
        bcs     @good
        lda     #'.'|$80
@good    jsr     COUT
        iny
        cpy     #PERROW
        bne     @char
        }
        jsr     CROUT
        clc
        lda     A1
        adc     #PERROW
        sta     A1
        bcc     @same
        inc     A1+1
@same    lda     A1
        cmp     A2
        lda     A1+1
        sbc     A2+1
        bcc     row
        rts
data     !text   "MEMORY OF 1977"
        !byte   0, 1, 2, $ff
        !xor    $80 { !text "HIGH TEXT" }
        !hex    20edfd60a9c1
dataend  !byte   0
        !fill   8
vector   !word   dump, row, data, dataend
        !byte   <dump, >dump, <data+1, >data+256
