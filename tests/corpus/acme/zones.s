; Zones, blocks in braces, and labels without names
        !cpu 6502
        * = $5000
DEBUG = 0
LEVEL = 3
TABLE = $0900
        !macro add16 .from, .to {
        clc
        lda .from
        adc .to
        sta .to
        lda .from+1
        adc .to+1
        sta .to+1
        bcc .end
        inc .to+2
.end
        }
        !macro wait .x {
        ldx #.x
-       dex
        bne -
        }
        !zone first
first   ldx #8
.loop   lda TABLE,x
        bne +
        sta TABLE+1,x
+       dex
        bne .loop
        beq ++
        brk
++      rts
        !zone second {
second  ldy #0
.loop   iny
        beq .loop
@cheap  dey
        bne @cheap
        +add16 TABLE, TABLE+8
        +add16 TABLE+2, TABLE+16
        +wait 5
        +wait LEVEL*2
        rts
}
third   !if DEBUG { brk } else { nop }
        !if LEVEL = 3 {
        lda #LEVEL
        } else {
        lda #0
        }
        !ifdef DEBUG { inx }
        !ifndef MISSING { iny }
--      lda #<text
        ldx #>text+256
        bne --
        lda+2 $10
        sta+1 $20
        !for i, 3, 6 { !byte i * 2 }
        !for j, 2 {
        nop
        }
        !for k, 0, 2 {
        !word TABLE + k * 40
        }
        !byte <first, >first, 'A', "B", LEVEL << 2 | 1
        !byte LEVEL * (2 + 1), -1 & $ff, %00000101, 0x1f
text    !text "Hello", 13, 0
        !xor $80 { !text "High" }
        !hex a9 c1 60
        !fill 4, $ea
        !fill 3
        !be16 $1234
        !set count = 1
        !byte count
        !set count = count + 4
        !byte count, LEVEL MOD 2, 7 DIV 2 ; numbers
        rts // the end
