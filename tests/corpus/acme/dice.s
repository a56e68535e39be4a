        !cpu 6502
; DICE: throws two dice for each key, until Q
COUT     =       $fded
CROUT    =       $fd8e
RDKEY    =       $fd0c
RNDL     =       $4e
RNDH     =       $4f
POINTS   =       $06
THROWS   =       $07
SIDES    =       6
QUIT     =       $d1
        * = $0c00
        !macro  say .text {
        ldx     #.text-texts
        jsr     puts
        }
dice     lda     #0
        sta     THROWS
@turn    +say    ask
        jsr     RDKEY
        cmp     #QUIT
        beq     @end
        inc     THROWS
        jsr     throw
        sta     POINTS
        jsr     throw
        clc
        adc     POINTS
        sta     POINTS
        +say    result
        lda     POINTS
        jsr     digits
        jsr     CROUT
        jmp     @turn
@end     +say    bye
        rts
; THROW returns 1 to 6 in A
throw    lda     RNDL
        asl
        asl
        clc
        adc     RNDL
        clc
        adc     #17
        sta     RNDL
        eor     RNDH
        and     #7
        beq     throw
        cmp     #SIDES+1
        bcs     throw
        rts
; DIGITS prints A in decimal, below 100
digits   ldx     #0
@tens    cmp     #10
        bcc     @ones
        sbc     #10
        inx
        bne     @tens
@ones    pha
        txa
        beq     @one
        ora     #'0'|$80
        jsr     COUT
@one     pla
        ora     #'0'|$80
        jmp     COUT
puts     lda     texts,x
        beq     @done
        jsr     COUT
        inx
        bne     puts
@done    rts
texts    !byte   0
ask      !xor    $80 { !text "PRESS A KEY, OR Q: " }
        !byte   0
result   !xor    $80 { !text " YOU THROW " }
        !byte   0
bye      !byte   $8d
        !xor    $80 { !text "GOODBYE" }
        !byte   $8d, 0
