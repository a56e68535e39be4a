; SORT: sorts a table of bytes and prints it
COUT     =       $fded
CROUT    =       $fd8e
PRBYTE   =       $fdda
        .virtual $06
SWAPS    .fill   1
LEFT     .fill   1
SAVE     .fill   1
        .endv
ORDER    =       0
        * = $6000
main     jsr     show
        jsr     sort
        jsr     show
        rts
sort     lda     #SIZE-1
        sta     LEFT
_pass    lda     #0
        sta     SWAPS
        ldx     #0
_pair    lda     table,x
        cmp     table+1,x
        .if     ORDER
        bcs     _good
        .else
        bcc     _good
        beq     _good
        .fi
        pha
        lda     table+1,x
        sta     table,x
        pla
        sta     table+1,x
        inc     SWAPS
_good    inx
        cpx     LEFT
        bcc     _pair
        lda     SWAPS
        beq     _done
        dec     LEFT
        bne     _pass
_done    rts
; SHOW prints all bytes of the table
show     ldx     #0
_next    lda     table,x
        stx     SAVE
        jsr     PRBYTE
        lda     #$a0
        jsr     COUT
        ldx     SAVE
        inx
        cpx     #SIZE
        bne     _next
        jmp     CROUT
table    .byte   17, 4, 255, $80, 99, 3
        .byte   42, 200, 7, $10, 1, 150
        .byte   60, 61, $7f, $c1
tabend   .byte   0
SIZE     =       16
        .fill   4, 0
        .word   table, tabend, main
