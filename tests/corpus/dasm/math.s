        processor 6502
; MATH: sums and products of two bytes
COUT     =       $fded
CROUT    =       $fd8e
PRBYTE   =       $fdda
        seg.u   vars
        org     $06
NUM1     ds      2
NUM2     ds      2
ANS      ds      2
COUNT    ds      1
        seg     code
FIRST    =       1234
SECOND   =       567
TESTING  =       1
        org     $4000
        mac     add16
        clc
        lda     {1}
        adc     {2}
        sta     {3}
        lda     {1}+1
        adc     {2}+1
        sta     {3}+1
        endm
        mac     inc16
        inc     {1}
        bne     .skip
        inc     {1}+1
.skip
        endm
        mac     set16
        lda     #<{2}
        sta     {1}
        lda     #>{2}
        sta     {1}+1
        endm
main     set16   NUM1, FIRST
        set16   NUM2, SECOND
        add16   NUM1, NUM2, ANS
        jsr     show
        inc16   ANS
        inc16   ANS
        jsr     show
        if      TESTING
        set16   NUM1, 19
        set16   NUM2, 23
        jsr     mult
        jsr     show
        endif
        rts
; MULT: ANS is the low byte of NUM1 times that of NUM2
mult     subroutine
        lda     #0
        sta     ANS
        sta     ANS+1
        lda     #8
        sta     COUNT
.bit     asl     ANS
        rol     ANS+1
        asl     NUM2
        bcc     .none
        clc
        lda     NUM1
        adc     ANS
        sta     ANS
        bcc     .none
        inc     ANS+1
.none    dec     COUNT
        bne     .bit
        rts
show     subroutine
        lda     ANS+1
        jsr     PRBYTE
        lda     ANS
        jsr     PRBYTE
        jmp     CROUT
tens     subroutine
        dc.w    10000, 1000, 100, 10, 1
sums     subroutine
        dc.w    FIRST+SECOND, FIRST-SECOND
        dc.b    FIRST/256, SECOND/256
