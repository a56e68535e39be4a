        .setcpu "6502"
; BOXES: blocks in low resolution, from a table of shapes
GR       =       $fb40
PLOT     =       $f800
COLOR    =       $30
HLINE    =       $f819
H2       =       $2c
LEFT     =       $08
TOP      =       $09
WIDE     =       $0a
HIGH     =       $0b
HUE      =       $0c
SHAPES   =       5
FIELDS   =       5
FILL     =       1
        .org    $0900
boxes:   jsr     GR
        ldx     #0
@shape:  ldy     #0
@copy:   lda     table,x
        sta     LEFT,y
        inx
        iny
        cpy     #FIELDS
        bne     @copy
        txa
        pha
        jsr     box
        pla
        tax
        cpx     #SHAPES*FIELDS
        bne     @shape
        rts
; BOX draws one box
box:     lda     HUE
        jsr     paint
@row:    ldy     LEFT
        tya
        clc
        adc     WIDE
        sta     H2
        lda     TOP
        .if     FILL
        jsr     HLINE
        .else
        jsr     PLOT
        .endif
        inc     TOP
        dec     HIGH
        bne     @row
        rts
; PAINT sets the colour of both halves
paint:   sta     COLOR
        asl
        asl
        asl
        asl
        ora     COLOR
        sta     COLOR
        rts
table:   .byte   0, 0, 9, 10, 1
        .byte   12, 4, 7, 20, 6
        .byte   22, 10, 3, 3, 9
        .byte   28, 2, 10, 30, 13
        .byte   4, 30, 20, 8, 12
names:   .byte   "red green orange yellow"
        .byte   0
colors:  .byte   1, 2, 3, 4, 5, 6, 7, 8
        .byte   9, 10, 11, 12, 13, 14, 15
        .repeat 4
        .byte   $ff, 0
        .endrepeat
exit:    jmp     boxes
