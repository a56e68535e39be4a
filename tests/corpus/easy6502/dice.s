; DICE: throws two dice for each key, until Q
define COUT $fded
define CROUT $fd8e
define RDKEY $fd0c
define RNDL $4e
define RNDH $4f
define POINTS $06
define THROWS $07
define SIDES 6
define QUIT $d1
*=$0c00
dice:    lda     #0
        sta     THROWS
diceturn:
        ldx     #ask-texts
        jsr     puts
        jsr     RDKEY
        cmp     #QUIT
        beq     diceend
        inc     THROWS
        jsr     throw
        sta     POINTS
        jsr     throw
        clc
        adc     POINTS
        sta     POINTS
        ldx     #result-texts
        jsr     puts
        lda     POINTS
        jsr     digits
        jsr     CROUT
        jmp     diceturn
diceend:
        ldx     #bye-texts
        jsr     puts
        rts
; THROW returns 1 to 6 in A
throw:   lda     RNDL
        asl
        asl
        clc
        adc     RNDL
        clc
        adc     #17
        sta     RNDL
        eor     RNDH
        and     #7
        beq     throw
        cmp     #SIDES+1
        bcs     throw
        rts
; DIGITS prints A in decimal, below 100
digits:  ldx     #0
digitstens: cmp     #10
        bcc     digitsones
        sbc     #10
        inx
        bne     digitstens
digitsones: pha
        txa
        beq     digitsone
        ora     #$B0
        jsr     COUT
digitsone: pla
        ora     #$B0
        jmp     COUT
puts:    lda     texts,x
        beq     putsdone
        jsr     COUT
        inx
        bne     puts
putsdone: rts
texts:   dcb     0
ask:     dcb     $d0,$d2,$c5,$d3,$d3,$a0,$c1,$a0,$cb,$c5,$d9,$ac,$a0,$cf,$d2,$a0,$d1,$ba,$a0
        dcb     0
result:  dcb     $a0,$d9,$cf,$d5,$a0,$d4,$c8,$d2,$cf,$d7,$a0
        dcb     0
bye:     dcb     $8d
        dcb     $c7,$cf,$cf,$c4,$c2,$d9,$c5
        dcb     $8d, 0
