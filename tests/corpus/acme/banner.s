        !cpu 6502
; BANNER: prints three lines in the middle of the screen
HOME     =       $fc58
COUT     =       $fded
CROUT    =       $fd8e
VTAB     =       $fc22
CH       =       $24
CV       =       $25
PTR      =       $06
COUNT    =       $08
WIDTH    =       40
BORDER   =       1
        * = $0800
        !macro  print .text {
        lda     #<.text
        sta     PTR
        lda     #>.text
        sta     PTR+1
        jsr     show
        }
start    jsr     HOME
        lda     #10
        sta     CV
        jsr     VTAB
        !if BORDER {
        jsr     line
        }
        +print  line1
        +print  line2
        +print  line3
        !if BORDER {
        jsr     line
        }
        rts
; SHOW centres the text at PTR, which ends with 0
show     ldy     #0             ; find its length
@count   lda     (PTR),y
        beq     @found
        iny
        bne     @count
@found   sty     COUNT
        lda     #WIDTH
        sec
        sbc     COUNT
        lsr
        sta     CH
        ldy     #0
@next    lda     (PTR),y
        beq     @done
        jsr     COUT
        iny
        bne     @next
@done    jmp     CROUT
; LINE draws a line of stars
line     ldx     #WIDTH
        lda     #0
        sta     CH
        lda     #'*'|$80
@again   jsr     COUT
        dex
        bne     @again
        rts
line1    !xor    $80 { !text "GREETINGS FROM 1983" }
        !byte   0
line2    !xor    $80 { !text "THE DISK IS FULL OF GAMES" }
        !byte   0
line3    !xor    $80 { !text "PRESS ANY KEY" }
        !byte   0
