; BOXES: blocks in low resolution, from a table of shapes
GR       =       $fb40
PLOT     =       $f800
COLOR    =       $30
HLINE    =       $f819
H2       =       $2c
        .virtual $08
LEFT     .fill   1
TOP      .fill   1
WIDE     .fill   1
HIGH     .fill   1
HUE      .fill   1
        .endv
SHAPES   =       5
FIELDS   =       5
FILL     =       1
        * = $0900
boxes    jsr     GR
        ldx     #0
_shape   ldy     #0
_copy    lda     table,x
        sta     LEFT,y
        inx
        iny
        cpy     #FIELDS
        bne     _copy
        txa
        pha
        jsr     box
        pla
        tax
        cpx     #SHAPES*FIELDS
        bne     _shape
        rts
; BOX draws one box
box      lda     HUE
        jsr     paint
_row     ldy     LEFT
        tya
        clc
        adc     WIDE
        sta     H2
        lda     TOP
        .if     FILL
        jsr     HLINE
        .else
        jsr     PLOT
        .fi
        inc     TOP
        dec     HIGH
        bne     _row
        rts
; PAINT sets the colour of both halves
paint    sta     COLOR
        asl     A
        asl     A
        asl     A
        asl     A
        ora     COLOR
        sta     COLOR
        rts
table    .byte   0, 0, 9, 10, 1
        .byte   12, 4, 7, 20, 6
        .byte   22, 10, 3, 3, 9
        .byte   28, 2, 10, 30, 13
        .byte   4, 30, 20, 8, 12
names    .text   "red green orange yellow"
        .byte   0
colors   .byte   1, 2, 3, 4, 5, 6, 7, 8
        .byte   9, 10, 11, 12, 13, 14, 15
        .rept   4
        .byte   $ff, 0
        .endrept
exit     jmp     boxes
