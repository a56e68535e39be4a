LEAST   LDA $10
        CMP $11
        BCC RET
        LDA $11
RET     RTS
