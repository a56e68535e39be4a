; SIEVE: prime numbers below 256, one flag a byte
COUT     =       $fded
CROUT    =       $fd8e
PRBYTE   =       $fdda
FLAGS    =       $1000
FACTOR   =       $08
INDEX    =       $09
LIMIT    =       16
        * = $0300
sieve    ldx     #0
        lda     #1
_fill    sta     FLAGS,x
        inx
        bne     _fill
        lda     #2
        sta     FACTOR
nextf    ldx     FACTOR
        lda     FLAGS,x
        beq     _skip
        txa
        asl     A
        bcs     _skip
_cross   tax
        lda     #0
        sta     FLAGS,x
        txa
        clc
        adc     FACTOR
        bcc     _cross
_skip    inc     FACTOR
        lda     FACTOR
        cmp     #LIMIT
        bcc     nextf
print    lda     #2
        sta     INDEX
_next    ldx     INDEX
        lda     FLAGS,x
        beq     _not
        txa
        jsr     PRBYTE
        lda     #' '|$80
        jsr     COUT
_not     inc     INDEX
        bne     _next
        jsr     CROUT
        rts
name     .byte   $d3,$c9,$c5,$d6,$c5
        .byte   $8d, 0
version  .word   $0102, LIMIT*LIMIT
entry    .word   sieve, nextf, print
powers   .byte   1, 2, 4, 8
        .byte   16, 32, 64, 128
masks    .byte   LIMIT-1, LIMIT+LIMIT
