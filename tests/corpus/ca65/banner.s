        .setcpu "6502"
; BANNER: prints three lines in the middle of the screen
HOME     =       $fc58
COUT     =       $fded
CROUT    =       $fd8e
VTAB     =       $fc22
CH       =       $24
CV       =       $25
PTR      =       $06
COUNT    =       $08
WIDTH    =       40
BORDER   =       1
        .org    $0800
        .macro  print text
        lda     #<text
        sta     PTR
        lda     #>text
        sta     PTR+1
        jsr     show
        .endmacro
start:   jsr     HOME
        lda     #10
        sta     CV
        jsr     VTAB
        .if     BORDER
        jsr     line
        .endif
        print   line1
        print   line2
        print   line3
        .if     BORDER
        jsr     line
        .endif
        rts
; SHOW centres the text at PTR, which ends with 0
show:    ldy     #0             ; find its length
@count:  lda     (PTR),y
        beq     @found
        iny
        bne     @count
@found:  sty     COUNT
        lda     #WIDTH
        sec
        sbc     COUNT
        lsr
        sta     CH
        ldy     #0
@next:   lda     (PTR),y
        beq     @done
        jsr     COUT
        iny
        bne     @next
@done:   jmp     CROUT
; LINE draws a line of stars
line:    ldx     #WIDTH
        lda     #0
        sta     CH
        lda     #'*'|$80
@again:  jsr     COUT
        dex
        bne     @again
        rts
line1:   .byte   $c7,$d2,$c5,$c5,$d4,$c9,$ce,$c7,$d3,$a0,$c6,$d2,$cf,$cd,$a0,$b1,$b9,$b8,$b3
        .byte   0
line2:   .byte   $d4,$c8,$c5,$a0,$c4,$c9,$d3,$cb,$a0,$c9,$d3,$a0,$c6,$d5,$cc,$cc,$a0,$cf,$c6,$a0,$c7,$c1,$cd,$c5,$d3
        .byte   0
line3:   .byte   $d0,$d2,$c5,$d3,$d3,$a0,$c1,$ce,$d9,$a0,$cb,$c5,$d9
        .byte   0
