* Every form of the language, in promises that are proved. Lines of QUOTED end with a carriage return.
COUNT   EQU $10
TABLE   EQU $2000
LAST    EQU TABLE+3
        ORG $300

;: requires A < 100 and COUNT <= #COUNT

; comments and blank lines may stand between

;: requires X <> 7 or Y > #$1F
;: note     A = old A and A <= 99
;: stops RETURNED
;: ensures  A = old A + 1
;: ensures  1 <= A <= 100 and X = old X
;: ensures  not C and (N or Z iff A = 0 or A >= 128)
;: changes  A, C, Z, N, V
NEXT    CLC
        ADC #1
        RTS

;: ensures  A + #COUNT = #16 + old A and A + 16 = #$10 + A and -1 < A
;: ensures  COUNT = old $10 and word COUNT = old word $10 and word $08 >= 0
;: ensures  [#TABLE + X] = old [#TABLE + X] and word [#TABLE + 2 * Y] = old (word [#TABLE + 2 * Y])
;: ensures  (A + X) * 2 - Y = 2 * A + 2 * X - Y
;: ensures  A % 16 < 16 and A / 16 * 16 + A % 16 = A
;: ensures  A & 15 = old A & 15 and (A | X) = (old A | X) and (A ^ Y) = (A ^ old Y)
;: ensures  min(A, X) <= max(A, X) and abs(A - X) = abs(X - A)
;: ensures  bit 0 of A = A % 2 and bit 3 of $10 = old (bit 3 of COUNT)
;: ensures  -128 <= signed A < 128
;: ensures  if A < X then A <> X
;: ensures  if C and X = 3 then X < 4 else if V then X = old X else Y = old Y
;: ensures  if text [#TABLE + X] = 'OK' then X < 256
;: ensures  for all i < 4: [#TABLE + i] = old [#TABLE + i]
;: ensures  (sum i < 3: sum j < 2: 10 * i + j + A) = 63 + 6 * A
;: ensures  (sum i < 2: i + Y + sum i < 3: i) = 2 * Y + 7
STAY    RTS

;:requires(text TABLE="OK"and X<10)
;: ensures  text $0400 = "HI" and text TABLE = '";'
;:	changes	A,$0400..$0401,TABLE..LAST,COUNT
QUOTED  LDA #"H"
        STA $0400
        LDA #"I"
        STA $0401
        LDA #'"'
        STA TABLE
        LDA #';'
        STA TABLE+1
        RTS

;: requires X >= 1
;: ensures  X = 0
;: changes  X
;: invariant X >= 1
;: decreases X
DOWN    DEX
        BNE DOWN
        RTS

;: requires Y >= 1
;: ensures  $08 = old Y
;: changes  X, Y, $08
NEST    LDX #0
        STX $08
;: invariant 1 <= Y
;: invariant $08 + Y = old Y
;: decreases Y
OUTER   LDX #3
;: invariant X >= 1
;: invariant Y = at OUTER Y and $08 = at OUTER $08
;: decreases X
INNER   DEX
        BNE INNER
        INC $08
        DEY
        BNE OUTER
        RTS

;: changes  nothing
NONE
        RTS
