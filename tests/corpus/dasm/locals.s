; Local labels, brackets, and sizes of addresses
        processor 6502
DEBUG   equ 0
LEVEL   = 3
        seg.u zero
        org $80
PTR     ds 2
COUNT   ds 1
SAVE    ds.b 4
        seg code
        org $3000
        mac inc16
        inc {1}
        bne .skip
        inc {1}+1
.skip
        endm
        mac store
        lda #{1}
        sta {2}
        endm
START   subroutine
        ldx #8
.loop   lda $0900,x
        beq .done
        dex
        bne .loop
.done   rts
SECOND  subroutine
.loop   iny
        bne .loop
        inc16 PTR
        inc16 $0900
        store 5, PTR
        store [LEVEL*2], COUNT
        lda.w $10
        sta.w PTR,x
        lda (PTR),y
        rts
        subroutine
third:  ldx #LEVEL<<2|1
.loop   dex
        bne .loop
        lda #<[TEXT+1]
        ldy #>TEXT
        lda #<TEXT+1
        if LEVEL == 3
        nop
        else
        brk
        endif
        ifconst DEBUG
        inx
        endif
        ifnconst MISSING
        iny
        endif
        repeat 3
        asl
        repend
        cmp #'A
        cmp #'B|$80
        jmp third
TEXT    dc.b "Hello", 13, 0
        dc.b 'A, 'B|$80, <START, >START
        hex c8c9 cacb
        dc.w START, SECOND+LEVEL*2
        ds 4,$ea
        ds 2
COUNTER set 1
        .byte COUNTER
COUNTER set COUNTER+4
        .byte COUNTER, 7%4, LEVEL&1, LEVEL^1
        byte [1+2]*3
        word .-START
