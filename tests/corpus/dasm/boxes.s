        processor 6502
; BOXES: blocks in low resolution, from a table of shapes
GR       =       $fb40
PLOT     =       $f800
COLOR    =       $30
HLINE    =       $f819
H2       =       $2c
        seg.u   vars
        org     $08
LEFT     ds      1
TOP      ds      1
WIDE     ds      1
HIGH     ds      1
HUE      ds      1
        seg     code
SHAPES   =       5
FIELDS   =       5
FILL     =       1
        org     $0900
boxes    subroutine
        jsr     GR
        ldx     #0
.shape   ldy     #0
.copy    lda     table,x
        sta     LEFT,y
        inx
        iny
        cpy     #FIELDS
        bne     .copy
        txa
        pha
        jsr     box
        pla
        tax
        cpx     #SHAPES*FIELDS
        bne     .shape
        rts
; BOX draws one box
box      subroutine
        lda     HUE
        jsr     paint
.row     ldy     LEFT
        tya
        clc
        adc     WIDE
        sta     H2
        lda     TOP
        if      FILL
        jsr     HLINE
        else
        jsr     PLOT
        endif
        inc     TOP
        dec     HIGH
        bne     .row
        rts
; PAINT sets the colour of both halves
paint    subroutine
        sta     COLOR
        asl
        asl
        asl
        asl
        ora     COLOR
        sta     COLOR
        rts
table    subroutine
        dc.b    0, 0, 9, 10, 1
        dc.b    12, 4, 7, 20, 6
        dc.b    22, 10, 3, 3, 9
        dc.b    28, 2, 10, 30, 13
        dc.b    4, 30, 20, 8, 12
names    subroutine
        dc.b    "red green orange yellow"
        dc.b    0
colors   subroutine
        dc.b    1, 2, 3, 4, 5, 6, 7, 8
        dc.b    9, 10, 11, 12, 13, 14, 15
        repeat  4
        dc.b    $ff, 0
        repend
exit     subroutine
        jmp     boxes
