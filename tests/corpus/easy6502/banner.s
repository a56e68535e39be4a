; BANNER: prints three lines in the middle of the screen
define HOME $fc58
define COUT $fded
define CROUT $fd8e
define VTAB $fc22
define CH $24
define CV $25
define PTR $06
define COUNT $08
define WIDTH 40
define BORDER 1
*=$0800
start:   jsr     HOME
        lda     #10
        sta     CV
        jsr     VTAB
        jsr     line
        lda     #<line1
        sta     PTR
        lda     #>line1
        sta     PTR+1
        jsr     show
        lda     #<line2
        sta     PTR
        lda     #>line2
        sta     PTR+1
        jsr     show
        lda     #<line3
        sta     PTR
        lda     #>line3
        sta     PTR+1
        jsr     show
        jsr     line
        rts
; SHOW centres the text at PTR, which ends with 0
show:    ldy     #0             ; find its length
showcount: lda     (PTR),y
        beq     showfound
        iny
        bne     showcount
showfound: sty     COUNT
        lda     #WIDTH
        sec
        sbc     COUNT
        lsr
        sta     CH
        ldy     #0
shownext: lda     (PTR),y
        beq     showdone
        jsr     COUT
        iny
        bne     shownext
showdone: jmp     CROUT
; LINE draws a line of stars
line:    ldx     #WIDTH
        lda     #0
        sta     CH
        lda     #$AA
lineagain: jsr     COUT
        dex
        bne     lineagain
        rts
line1:   dcb     $c7,$d2,$c5,$c5,$d4,$c9,$ce,$c7,$d3,$a0,$c6,$d2,$cf,$cd,$a0,$b1,$b9,$b8,$b3
        dcb     0
line2:   dcb     $d4,$c8,$c5,$a0,$c4,$c9,$d3,$cb,$a0,$c9,$d3,$a0,$c6,$d5,$cc,$cc,$a0,$cf,$c6,$a0,$c7,$c1,$cd,$c5,$d3
        dcb     0
line3:   dcb     $d0,$d2,$c5,$d3,$d3,$a0,$c1,$ce,$d9,$a0,$cb,$c5,$d9
        dcb     0
