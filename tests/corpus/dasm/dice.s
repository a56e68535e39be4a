        processor 6502
; DICE: throws two dice for each key, until Q
COUT     =       $fded
CROUT    =       $fd8e
RDKEY    =       $fd0c
RNDL     =       $4e
RNDH     =       $4f
POINTS   =       $06
THROWS   =       $07
SIDES    =       6
QUIT     =       $d1
        org     $0c00
        mac     say
        ldx     #{1}-texts
        jsr     puts
        endm
dice     subroutine
        lda     #0
        sta     THROWS
.turn    say     ask
        jsr     RDKEY
        cmp     #QUIT
        beq     .end
        inc     THROWS
        jsr     throw
        sta     POINTS
        jsr     throw
        clc
        adc     POINTS
        sta     POINTS
        say     result
        lda     POINTS
        jsr     digits
        jsr     CROUT
        jmp     .turn
.end     say     bye
        rts
; THROW returns 1 to 6 in A
throw    subroutine
        lda     RNDL
        asl
        asl
        clc
        adc     RNDL
        clc
        adc     #17
        sta     RNDL
        eor     RNDH
        and     #7
        beq     throw
        cmp     #SIDES+1
        bcs     throw
        rts
; DIGITS prints A in decimal, below 100
digits   subroutine
        ldx     #0
.tens    cmp     #10
        bcc     .ones
        sbc     #10
        inx
        bne     .tens
.ones    pha
        txa
        beq     .one
        ora     #'0|$80
        jsr     COUT
.one     pla
        ora     #'0|$80
        jmp     COUT
puts     subroutine
        lda     texts,x
        beq     .done
        jsr     COUT
        inx
        bne     puts
.done    rts
texts    subroutine
        dc.b    0
ask      subroutine
        hex     d0d2c5d3d3a0c1a0cbc5d9aca0cfd2a0d1baa0
        dc.b    0
result   subroutine
        hex     a0d9cfd5a0d4c8d2cfd7a0
        dc.b    0
bye      subroutine
        dc.b    $8d
        hex     c7cfcfc4c2d9c5
        dc.b    $8d, 0
