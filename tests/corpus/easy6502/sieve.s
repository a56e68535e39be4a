; SIEVE: prime numbers below 256, one flag a byte
define COUT $fded
define CROUT $fd8e
define PRBYTE $fdda
define FLAGS $1000
define FACTOR $08
define INDEX $09
define LIMIT 16
*=$0300
sieve:   ldx     #0
        lda     #1
sievefill: sta     FLAGS,x
        inx
        bne     sievefill
        lda     #2
        sta     FACTOR
nextf:   ldx     FACTOR
        lda     FLAGS,x
        beq     nextfskip
        txa
        asl
        bcs     nextfskip
nextfcross: tax
        lda     #0
        sta     FLAGS,x
        txa
        clc
        adc     FACTOR
        bcc     nextfcross
nextfskip: inc     FACTOR
        lda     FACTOR
        cmp     #LIMIT
        bcc     nextf
print:   lda     #2
        sta     INDEX
printnext: ldx     INDEX
        lda     FLAGS,x
        beq     printnot
        txa
        jsr     PRBYTE
        lda     #$A0
        jsr     COUT
printnot: inc     INDEX
        bne     printnext
        jsr     CROUT
        rts
name:    dcb     $d3,$c9,$c5,$d6,$c5
        dcb     $8d, 0
version: dcb     <$0102, >$0102, <LIMIT*LIMIT, >LIMIT*LIMIT
entry:   dcb     <sieve, >sieve, <nextf, >nextf, <print, >print
powers:  dcb     1, 2, 4, 8
        dcb     16, 32, 64, 128
masks:   dcb     LIMIT-1, LIMIT+LIMIT
