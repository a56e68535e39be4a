; DUMP: lists memory in rows of eight bytes
define COUT $fded
define CROUT $fd8e
define PRBYTE $fdda
define PRBLNK $f948
define A1 $3c
define A2 $3e
define PERROW 8
define ASCII 1
*=$1000
dump:    lda     #<data
        sta     A1
        lda     #>data
        sta     A1+1
        lda     #<dataend
        sta     A2
        lda     #>dataend
        sta     A2+1
row:     lda     A1+1
        jsr     PRBYTE
        lda     A1
        jsr     PRBYTE
        lda     #$AD
        jsr     COUT
        ldy     #0
rowbyte: lda     #$A0
        jsr     COUT
        lda     (A1),y
        jsr     PRBYTE
        iny
        cpy     #PERROW
        bne     rowbyte
        jsr     PRBLNK
        ldy     #0
rowchar: lda     (A1),y
        ora     #$80
        cmp     #$a0
        bcs     rowgood
        lda     #$AE
rowgood: jsr     COUT
        iny
        cpy     #PERROW
        bne     rowchar
        jsr     CROUT
        clc
        lda     A1
        adc     #PERROW
        sta     A1
        bcc     rowsame
        inc     A1+1
rowsame: lda     A1
        cmp     A2
        lda     A1+1
        sbc     A2+1
        bcc     row
        rts
data:    dcb     $4d,$45,$4d,$4f,$52,$59,$20,$4f,$46,$20,$31,$39,$37,$37
        dcb     0, 1, 2, $ff
        dcb     $c8,$c9,$c7,$c8,$a0,$d4,$c5,$d8,$d4
        dcb     $20,$ED,$FD,$60,$A9,$C1
dataend: dcb     0
        dcb     0, 0, 0, 0, 0, 0, 0, 0
vector:  dcb     <dump, >dump, <row, >row, <data, >data, <dataend, >dataend
        dcb     <dump, >dump, <data+1, >data+256
