; DICE: throws two dice for each key, until Q
COUT     =       $fded
CROUT    =       $fd8e
RDKEY    =       $fd0c
RNDL     =       $4e
RNDH     =       $4f
POINTS   =       $06
THROWS   =       $07
SIDES    =       6
QUIT     =       $d1
        * = $0c00
say      .macro  text
        ldx     #\text-texts
        jsr     puts
        .endm
dice     lda     #0
        sta     THROWS
_turn    #say    ask
        jsr     RDKEY
        cmp     #QUIT
        beq     _end
        inc     THROWS
        jsr     throw
        sta     POINTS
        jsr     throw
        clc
        adc     POINTS
        sta     POINTS
        #say    result
        lda     POINTS
        jsr     digits
        jsr     CROUT
        jmp     _turn
_end     #say    bye
        rts
; THROW returns 1 to 6 in A
throw    lda     RNDL
        asl     A
        asl     A
        clc
        adc     RNDL
        clc
        adc     #17
        sta     RNDL
        eor     RNDH
        and     #7
        beq     throw
        cmp     #SIDES+1
        bcs     throw
        rts
; DIGITS prints A in decimal, below 100
digits   ldx     #0
_tens    cmp     #10
        bcc     _ones
        sbc     #10
        inx
        bne     _tens
_ones    pha
        txa
        beq     _one
        ora     #'0'|$80
        jsr     COUT
_one     pla
        ora     #'0'|$80
        jmp     COUT
puts     lda     texts,x
        beq     _done
        jsr     COUT
        inx
        bne     puts
_done    rts
texts    .byte   0
ask      .byte   $d0,$d2,$c5,$d3,$d3,$a0,$c1,$a0,$cb,$c5,$d9,$ac,$a0,$cf,$d2,$a0,$d1,$ba,$a0
        .byte   0
result   .byte   $a0,$d9,$cf,$d5,$a0,$d4,$c8,$d2,$cf,$d7,$a0
        .byte   0
bye      .byte   $8d
        .byte   $c7,$cf,$cf,$c4,$c2,$d9,$c5
        .byte   $8d, 0
