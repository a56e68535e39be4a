; MATH: sums and products of two bytes
COUT     =       $fded
CROUT    =       $fd8e
PRBYTE   =       $fdda
        .virtual $06
NUM1     .fill   2
NUM2     .fill   2
ANS      .fill   2
COUNT    .fill   1
        .endv
FIRST    =       1234
SECOND   =       567
TESTING  =       1
        * = $4000
add16    .macro  one, two, sum
        clc
        lda     \one
        adc     \two
        sta     \sum
        lda     \one+1
        adc     \two+1
        sta     \sum+1
        .endm
inc16    .macro  one
        inc     \one
        bne     skip
        inc     \one+1
skip
        .endm
set16    .macro  one, value
        lda     #<\value
        sta     \one
        lda     #>\value
        sta     \one+1
        .endm
main     #set16  NUM1, FIRST
        #set16  NUM2, SECOND
        #add16  NUM1, NUM2, ANS
        jsr     show
        #inc16  ANS
        #inc16  ANS
        jsr     show
        .if     TESTING
        #set16  NUM1, 19
        #set16  NUM2, 23
        jsr     mult
        jsr     show
        .fi
        rts
; MULT: ANS is the low byte of NUM1 times that of NUM2
mult     lda     #0
        sta     ANS
        sta     ANS+1
        lda     #8
        sta     COUNT
_bit     asl     ANS
        rol     ANS+1
        asl     NUM2
        bcc     _none
        clc
        lda     NUM1
        adc     ANS
        sta     ANS
        bcc     _none
        inc     ANS+1
_none    dec     COUNT
        bne     _bit
        rts
show     lda     ANS+1
        jsr     PRBYTE
        lda     ANS
        jsr     PRBYTE
        jmp     CROUT
tens     .word   10000, 1000, 100, 10, 1
sums     .word   FIRST+SECOND, FIRST-SECOND
        .byte   FIRST/256, SECOND/256
