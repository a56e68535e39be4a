; MATH: sums and products of two bytes
define COUT $fded
define CROUT $fd8e
define PRBYTE $fdda
define NUM1 $06
define NUM2 $08
define ANS $0a
define COUNT $0c
define FIRST 1234
define SECOND 567
define TESTING 1
*=$4000
main:
        lda     #<FIRST
        sta     NUM1
        lda     #>FIRST
        sta     NUM1+1
        lda     #<SECOND
        sta     NUM2
        lda     #>SECOND
        sta     NUM2+1
        clc
        lda     NUM1
        adc     NUM2
        sta     ANS
        lda     NUM1+1
        adc     NUM2+1
        sta     ANS+1
        jsr     show
        inc     ANS
        bne     i4skip
        inc     ANS+1
i4skip:
        inc     ANS
        bne     i5skip
        inc     ANS+1
i5skip:
        jsr     show
        lda     #<19
        sta     NUM1
        lda     #>19
        sta     NUM1+1
        lda     #<23
        sta     NUM2
        lda     #>23
        sta     NUM2+1
        jsr     mult
        jsr     show
        rts
; MULT: ANS is the low byte of NUM1 times that of NUM2
mult:    lda     #0
        sta     ANS
        sta     ANS+1
        lda     #8
        sta     COUNT
multbit: asl     ANS
        rol     ANS+1
        asl     NUM2
        bcc     multnone
        clc
        lda     NUM1
        adc     ANS
        sta     ANS
        bcc     multnone
        inc     ANS+1
multnone: dec     COUNT
        bne     multbit
        rts
show:    lda     ANS+1
        jsr     PRBYTE
        lda     ANS
        jsr     PRBYTE
        jmp     CROUT
tens:    dcb     <10000, >10000, <1000, >1000, <100, >100, <10, >10, <1, >1
sums:    dcb     <FIRST+SECOND, >FIRST+SECOND, <FIRST-SECOND, >FIRST-SECOND
        dcb     FIRST/256, SECOND/256
