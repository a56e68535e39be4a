LEAST   LDA $10
        CMP $11
        BMI RET
        LDA $11
RET     RTS
