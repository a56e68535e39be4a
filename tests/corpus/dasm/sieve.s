        processor 6502
; SIEVE: prime numbers below 256, one flag a byte
COUT     =       $fded
CROUT    =       $fd8e
PRBYTE   =       $fdda
FLAGS    =       $1000
FACTOR   =       $08
INDEX    =       $09
LIMIT    =       16
        org     $0300
sieve    subroutine
        ldx     #0
        lda     #1
.fill    sta     FLAGS,x
        inx
        bne     .fill
        lda     #2
        sta     FACTOR
nextf    subroutine
        ldx     FACTOR
        lda     FLAGS,x
        beq     .skip
        txa
        asl
        bcs     .skip
.cross   tax
        lda     #0
        sta     FLAGS,x
        txa
        clc
        adc     FACTOR
        bcc     .cross
.skip    inc     FACTOR
        lda     FACTOR
        cmp     #LIMIT
        bcc     nextf
print    subroutine
        lda     #2
        sta     INDEX
.next    ldx     INDEX
        lda     FLAGS,x
        beq     .not
        txa
        jsr     PRBYTE
        lda     #' |$80
        jsr     COUT
.not     inc     INDEX
        bne     .next
        jsr     CROUT
        rts
name     subroutine
        hex     d3c9c5d6c5
        dc.b    $8d, 0
version  subroutine
        dc.w    $0102, LIMIT*LIMIT
entry    subroutine
        dc.w    sieve, nextf, print
powers   subroutine
        dc.b    1, 2, 4, 8
        dc.b    16, 32, 64, 128
masks    subroutine
        dc.b    LIMIT-1, LIMIT+LIMIT
