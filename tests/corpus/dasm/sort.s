        processor 6502
; SORT: sorts a table of bytes and prints it
COUT     =       $fded
CROUT    =       $fd8e
PRBYTE   =       $fdda
        seg.u   vars
        org     $06
SWAPS    ds      1
LEFT     ds      1
SAVE     ds      1
        seg     code
ORDER    =       0
        org     $6000
main     subroutine
        jsr     show
        jsr     sort
        jsr     show
        rts
sort     subroutine
        lda     #SIZE-1
        sta     LEFT
.pass    lda     #0
        sta     SWAPS
        ldx     #0
.pair    lda     table,x
        cmp     table+1,x
        if      ORDER
        bcs     .good
        else
        bcc     .good
        beq     .good
        endif
        pha
        lda     table+1,x
        sta     table,x
        pla
        sta     table+1,x
        inc     SWAPS
.good    inx
        cpx     LEFT
        bcc     .pair
        lda     SWAPS
        beq     .done
        dec     LEFT
        bne     .pass
.done    rts
; SHOW prints all bytes of the table
show     subroutine
        ldx     #0
.next    lda     table,x
        stx     SAVE
        jsr     PRBYTE
        lda     #$a0
        jsr     COUT
        ldx     SAVE
        inx
        cpx     #SIZE
        bne     .next
        jmp     CROUT
table    subroutine
        dc.b    17, 4, 255, $80, 99, 3
        dc.b    42, 200, 7, $10, 1, 150
        dc.b    60, 61, $7f, $c1
tabend   subroutine
        dc.b    0
SIZE     =       16
        ds      4
        dc.w    table, tabend, main
