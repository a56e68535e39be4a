LEAST   LDA $10
        CMP $11
        BCS RET
        LDA $11
RET     RTS
