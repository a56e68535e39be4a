; reads a line
 ORG $300
 JSR $FD6A
 RTS
