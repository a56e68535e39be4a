" Sources for a2: labels in column 1, 56 mnemonics, six directives.
if exists("b:current_syntax")
  finish
endif
syntax case ignore

syntax match a2Label /^[A-Za-z_]\w*/
syntax match a2Operation /\(^\w*\s\+\)\@<=\a\+\>/ contains=a2Mnemonic,a2Directive
syntax keyword a2Mnemonic contained adc and asl bcc bcs beq bit bmi bne bpl brk bvc bvs clc cld cli clv cmp cpx cpy
syntax keyword a2Mnemonic contained dec dex dey eor inc inx iny jmp jsr lda ldx ldy lsr nop ora pha php pla plp rol ror
syntax keyword a2Mnemonic contained rti rts sbc sec sed sei sta stx sty tax tay tsx txa txs tya
syntax keyword a2Directive contained org equ dfb dw asc ds
syntax match a2Number /\$\x\{1,4}\>\|%[01]\{1,16}\>\|\<\d\{1,5}\>/
syntax region a2Text start=/"/ end=/"/ oneline
syntax region a2Text start=/'/ end=/'/ oneline
syntax match a2Comment /^\*.*$/
syntax match a2Comment /;.*$/

highlight default link a2Label Identifier
highlight default link a2Operation Error
highlight default link a2Mnemonic Statement
highlight default link a2Directive PreProc
highlight default link a2Number Number
highlight default link a2Text String
highlight default link a2Comment Comment
let b:current_syntax = "a2"
