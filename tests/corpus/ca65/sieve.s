        .setcpu "6502"
; SIEVE: prime numbers below 256, one flag a byte
COUT     =       $fded
CROUT    =       $fd8e
PRBYTE   =       $fdda
FLAGS    =       $1000
FACTOR   =       $08
INDEX    =       $09
LIMIT    =       16
        .org    $0300
sieve:   ldx     #0
        lda     #1
@fill:   sta     FLAGS,x
        inx
        bne     @fill
        lda     #2
        sta     FACTOR
nextf:   ldx     FACTOR
        lda     FLAGS,x
        beq     @skip
        txa
        asl
        bcs     @skip
@cross:  tax
        lda     #0
        sta     FLAGS,x
        txa
        clc
        adc     FACTOR
        bcc     @cross
@skip:   inc     FACTOR
        lda     FACTOR
        cmp     #LIMIT
        bcc     nextf
print:   lda     #2
        sta     INDEX
@next:   ldx     INDEX
        lda     FLAGS,x
        beq     @not
        txa
        jsr     PRBYTE
        lda     #' '|$80
        jsr     COUT
@not:    inc     INDEX
        bne     @next
        jsr     CROUT
        rts
name:    .byte   $d3,$c9,$c5,$d6,$c5
        .byte   $8d, 0
version: .word   $0102, LIMIT*LIMIT
entry:   .word   sieve, nextf, print
powers:  .byte   1, 2, 4, 8
        .byte   16, 32, 64, 128
masks:   .byte   LIMIT-1, LIMIT+LIMIT
