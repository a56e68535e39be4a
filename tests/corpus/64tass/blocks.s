; Blocks, macros with positions, and labels that are signs
        .cpu "6502"
        * = $7000
level   = 3
Table   = $0900
next    .macro
        inc \1
        bne +
        inc \1+1
+
        .endm
store   .macro value, place
        lda #\value
        sta \place
        .endm
start   ldx #8
-       lda table,x
        bne +
        sta TABLE+1,x
+       dex
        bne -
        jsr draw
        jsr draw.inner
        rts
draw    .proc
loop    lda table
        beq _end
        jmp loop
_end    rts
inner   inx
        bne loop
        rts
        .pend
erase   .block
loop    lda #0
        sta table
        beq loop
        .bend
other   ldy #0
_again  iny
        bne _again
        #next $20
        #next table
        #store 5, $30
        .store level*2, table+1
        .if level == 3
        nop
        .elsif level == 2
        brk
        .else
        sei
        .fi
        lda @w $10
        asl a
        cmp #(level << 4) | 2
        cmp #>start+256
        cmp #<start+1
        .rept 3
        .byte 1, 2
        .next
        .text "A", "text", 0
        .text "plain text", 13
        .null "ended"
        .shift "last"
        .ptext "counted"
        .word start, draw.loop, erase.loop
        .fill 4, $ea
        .fill 3, 0
        .byte <start, >start, level & 1, ~level & $ff, 7 % 4
count   := 1
        .byte count
count   := count + 4
        .byte count
        rts
