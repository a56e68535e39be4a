; BANNER: prints three lines in the middle of the screen
HOME     =       $fc58
COUT     =       $fded
CROUT    =       $fd8e
VTAB     =       $fc22
CH       =       $24
CV       =       $25
PTR      =       $06
COUNT    =       $08
WIDTH    =       40
BORDER   =       1
        * = $0800
print    .macro  text
        lda     #<\text
        sta     PTR
        lda     #>\text
        sta     PTR+1
        jsr     show
        .endm
start    jsr     HOME
        lda     #10
        sta     CV
        jsr     VTAB
        .if     BORDER
        jsr     line
        .fi
        #print  line1
        #print  line2
        #print  line3
        .if     BORDER
        jsr     line
        .fi
        rts
; SHOW centres the text at PTR, which ends with 0
show     ldy     #0             ; find its length
_count   lda     (PTR),y
        beq     _found
        iny
        bne     _count
_found   sty     COUNT
        lda     #WIDTH
        sec
        sbc     COUNT
        lsr     A
        sta     CH
        ldy     #0
_next    lda     (PTR),y
        beq     _done
        jsr     COUT
        iny
        bne     _next
_done    jmp     CROUT
; LINE draws a line of stars
line     ldx     #WIDTH
        lda     #0
        sta     CH
        lda     #'*'|$80
_again   jsr     COUT
        dex
        bne     _again
        rts
line1    .byte   $c7,$d2,$c5,$c5,$d4,$c9,$ce,$c7,$d3,$a0,$c6,$d2,$cf,$cd,$a0,$b1,$b9,$b8,$b3
        .byte   0
line2    .byte   $d4,$c8,$c5,$a0,$c4,$c9,$d3,$cb,$a0,$c9,$d3,$a0,$c6,$d5,$cc,$cc,$a0,$cf,$c6,$a0,$c7,$c1,$cd,$c5,$d3
        .byte   0
line3    .byte   $d0,$d2,$c5,$d3,$d3,$a0,$c1,$ce,$d9,$a0,$cb,$c5,$d9
        .byte   0
