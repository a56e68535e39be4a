; Scopes: procedures, structures, enumerations and labels without names
        .setcpu "6502"
        .struct Sprite
xpos    .byte
ypos    .byte
shape   .word
name    .res    8
        .endstruct

        .enum   Color
black
red
blue    = 6
brown
        .endenum

        .enum
first
second
        .endenum

DEBUG   = 0
LEVEL   = 2
TABLE   = $0900
        .org    $4000

.proc   draw
        ldx     #Color::brown
loop:   lda     TABLE+Sprite::name,x
        sta     TABLE+Sprite::shape+1,x
        dex
        bne     loop
        jmp     done
done:   rts
.endproc

.proc   clear
        ldx     #second
loop:   lda     #Color::black
        sta     TABLE,x
        dex
        bpl     loop
        jsr     draw
        jsr     draw::done
        rts
.endproc

main:   jsr     clear
        lda     a:$10
        lda     $10
        sta     a:PTR+1,x
        .ifdef  DEBUG
        nop
        .endif
        .ifndef MISSING
        iny
        .endif
        .if     LEVEL = 1
        brk
        .elseif LEVEL = 2 && DEBUG = 0
        inx
        .else
        dex
        .endif
        cmp     #(LEVEL << 3) | 1
        bne     :+
        beq     :++
:       lda     #<main+1
        ldx     #>main+1
        ldy     #.lobyte(text)
:       lda     #>(text+256)
        eor     #%10101010 & ~LEVEL & $ff
        jmp     (vector)
vector: .word   main, draw, clear::loop
text:   .byte   "One", 0, "Two", $0d, 'A', 0
        .asciiz "Three"
        .dbyt   $1234
        .lobytes main, clear
        .hibytes main, clear
        .repeat 4, I
        .byte   I * 10 + LEVEL, 7 .mod 4
        .endrepeat
        .res    3, $ea
        .res    2
PTR     = $20
