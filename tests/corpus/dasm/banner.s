        processor 6502
; BANNER: prints three lines in the middle of the screen
HOME     =       $fc58
COUT     =       $fded
CROUT    =       $fd8e
VTAB     =       $fc22
CH       =       $24
CV       =       $25
PTR      =       $06
COUNT    =       $08
WIDTH    =       40
BORDER   =       1
        org     $0800
        mac     print
        lda     #<{1}
        sta     PTR
        lda     #>{1}
        sta     PTR+1
        jsr     show
        endm
start    subroutine
        jsr     HOME
        lda     #10
        sta     CV
        jsr     VTAB
        if      BORDER
        jsr     line
        endif
        print   line1
        print   line2
        print   line3
        if      BORDER
        jsr     line
        endif
        rts
; SHOW centres the text at PTR, which ends with 0
show     subroutine
        ldy     #0              ; find its length
.count   lda     (PTR),y
        beq     .found
        iny
        bne     .count
.found   sty     COUNT
        lda     #WIDTH
        sec
        sbc     COUNT
        lsr
        sta     CH
        ldy     #0
.next    lda     (PTR),y
        beq     .done
        jsr     COUT
        iny
        bne     .next
.done    jmp     CROUT
; LINE draws a line of stars
line     subroutine
        ldx     #WIDTH
        lda     #0
        sta     CH
        lda     #'*|$80
.again   jsr     COUT
        dex
        bne     .again
        rts
line1    subroutine
        hex     c7d2c5c5d4c9cec7d3a0c6d2cfcda0b1b9b8b3
        dc.b    0
line2    subroutine
        hex     d4c8c5a0c4c9d3cba0c9d3a0c6d5cccca0cfc6a0c7c1cdc5d3
        dc.b    0
line3    subroutine
        hex     d0d2c5d3d3a0c1ced9a0cbc5d9
        dc.b    0
