        .setcpu "6502"
; MATH: sums and products of two bytes
COUT     =       $fded
CROUT    =       $fd8e
PRBYTE   =       $fdda
NUM1     =       $06
NUM2     =       $08
ANS      =       $0a
COUNT    =       $0c
FIRST    =       1234
SECOND   =       567
TESTING  =       1
        .org    $4000
        .macro  add16 one, two, sum
        clc
        lda     one
        adc     two
        sta     sum
        lda     one+1
        adc     two+1
        sta     sum+1
        .endmacro
        .macro  inc16 one
        .local  skip
        inc     one
        bne     skip
        inc     one+1
skip:
        .endmacro
        .macro  set16 one, value
        lda     #<value
        sta     one
        lda     #>value
        sta     one+1
        .endmacro
main:    set16   NUM1, FIRST
        set16   NUM2, SECOND
        add16   NUM1, NUM2, ANS
        jsr     show
        inc16   ANS
        inc16   ANS
        jsr     show
        .if     TESTING
        set16   NUM1, 19
        set16   NUM2, 23
        jsr     mult
        jsr     show
        .endif
        rts
; MULT: ANS is the low byte of NUM1 times that of NUM2
mult:    lda     #0
        sta     ANS
        sta     ANS+1
        lda     #8
        sta     COUNT
@bit:    asl     ANS
        rol     ANS+1
        asl     NUM2
        bcc     @none
        clc
        lda     NUM1
        adc     ANS
        sta     ANS
        bcc     @none
        inc     ANS+1
@none:   dec     COUNT
        bne     @bit
        rts
show:    lda     ANS+1
        jsr     PRBYTE
        lda     ANS
        jsr     PRBYTE
        jmp     CROUT
tens:    .word   10000, 1000, 100, 10, 1
sums:    .word   FIRST+SECOND, FIRST-SECOND
        .byte   FIRST/256, SECOND/256
