; SORT: sorts a table of bytes and prints it
define COUT $fded
define CROUT $fd8e
define PRBYTE $fdda
define SWAPS $06
define LEFT $07
define SAVE $08
define ORDER 0
*=$6000
main:    jsr     show
        jsr     sort
        jsr     show
        rts
sort:    lda     #SIZE-1
        sta     LEFT
sortpass: lda     #0
        sta     SWAPS
        ldx     #0
sortpair: lda     table,x
        cmp     table+1,x
        bcc     sortgood
        beq     sortgood
        pha
        lda     table+1,x
        sta     table,x
        pla
        sta     table+1,x
        inc     SWAPS
sortgood: inx
        cpx     LEFT
        bcc     sortpair
        lda     SWAPS
        beq     sortdone
        dec     LEFT
        bne     sortpass
sortdone: rts
; SHOW prints all bytes of the table
show:    ldx     #0
shownext: lda     table,x
        stx     SAVE
        jsr     PRBYTE
        lda     #$a0
        jsr     COUT
        ldx     SAVE
        inx
        cpx     #SIZE
        bne     shownext
        jmp     CROUT
table:   dcb     17, 4, 255, $80, 99, 3
        dcb     42, 200, 7, $10, 1, 150
        dcb     60, 61, $7f, $c1
tabend:  dcb     0
define SIZE 16
        dcb     0, 0, 0, 0
        dcb     <table, >table, <tabend, >tabend, <main, >main
