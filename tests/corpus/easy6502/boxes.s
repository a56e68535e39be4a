; BOXES: blocks in low resolution, from a table of shapes
define GR $fb40
define PLOT $f800
define COLOR $30
define HLINE $f819
define H2 $2c
define LEFT $08
define TOP $09
define WIDE $0a
define HIGH $0b
define HUE $0c
define SHAPES 5
define FIELDS 5
define FILL 1
*=$0900
boxes:   jsr     GR
        ldx     #0
boxesshape: ldy     #0
boxescopy: lda     table,x
        sta     LEFT,y
        inx
        iny
        cpy     #FIELDS
        bne     boxescopy
        txa
        pha
        jsr     box
        pla
        tax
        cpx     #SHAPES*FIELDS
        bne     boxesshape
        rts
; BOX draws one box
box:     lda     HUE
        jsr     paint
boxrow:  ldy     LEFT
        tya
        clc
        adc     WIDE
        sta     H2
        lda     TOP
        jsr     HLINE
        inc     TOP
        dec     HIGH
        bne     boxrow
        rts
; PAINT sets the colour of both halves
paint:   sta     COLOR
        asl
        asl
        asl
        asl
        ora     COLOR
        sta     COLOR
        rts
table:   dcb     0, 0, 9, 10, 1
        dcb     12, 4, 7, 20, 6
        dcb     22, 10, 3, 3, 9
        dcb     28, 2, 10, 30, 13
        dcb     4, 30, 20, 8, 12
names:   dcb     $72,$65,$64,$20,$67,$72,$65,$65,$6e,$20,$6f,$72,$61,$6e,$67,$65,$20,$79,$65,$6c,$6c,$6f,$77
        dcb     0
colors:  dcb     1, 2, 3, 4, 5, 6, 7, 8
        dcb     9, 10, 11, 12, 13, 14, 15
        dcb     $ff, 0
        dcb     $ff, 0
        dcb     $ff, 0
        dcb     $ff, 0
exit:    jmp     boxes
