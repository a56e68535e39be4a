LEAST   LDX $10
        CPX $11
        BCC FOUND
        LDX $11
FOUND   TXA
        RTS
