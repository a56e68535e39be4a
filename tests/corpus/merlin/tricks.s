*--------------------------------
* TRICKS: LABELS THAT ARE SET AGAIN, A TABLE
* MADE BY LUP, AND TEXTS OF ALL KINDS
*--------------------------------
         LST   OFF
         XC    OFF
         ORG   $6000
COUT     EQU   $FDED
HOME     EQU   $FC58
WIDTH    =     40
         DUM   $0800
BUFFER   DS    WIDTH
CURX     DS    1
CURY     DS    1
WORDPTR  DS    2
         DEND
*--------------------------------
PRINTER  MAC
         LDY   #0
:NEXT    LDA   ]1,Y
         BEQ   :END
         JSR   COUT
         INY
         BNE   :NEXT
:END     LDA   #]2
         JSR   COUT
         EOM
*--------------------------------
START    JSR   HOME
         LDX   #0
]LOOP    LDA   BUFFER,X
         JSR   COUT
         INX
         CPX   #WIDTH
         BLT   ]LOOP
         LDY   #0
]LOOP    LDA   NAME,Y
         BEQ   :DONE
         ORA   #$80          ;SET BIT 7
         JSR   COUT
         INY
         BNE   ]LOOP
:DONE    LDA   #>NAME
         STA   WORDPTR+1
         LDA   #NAME         ;LOW BYTE
         STA   WORDPTR
         LDA   CURX
         CMP   #WIDTH-1
         BGE   :WRAP
         INC   CURX
         RTS
:WRAP    LDA   #0
         STA   CURX
         INC   CURY
         PRINTER NAME;"!"
         >>>   PRINTER,BUFFER;$8D
         RTS
NAME     STR   "COUNTED"
         DCI   "LAST"
         INV   "INVERSE"
         FLS   "FLASH"
         REV   "DRAW"
         ASC   "BYE",8D,00
         ASC   8D,"BYE",00
         ASC   'plain'8D00
         ASC   !say "hi"!
         HEX   A9C1,20EDFD
         DDB   $1234,START
         DFB   <START,>START,"A",'A',WIDTH*2+1,-1
         DA    START,NAME+WIDTH
]N       =     0
SQUARES  LUP   8
         DFB   ]N*]N
]N       =     ]N+1
         --^
         LUP   3
         NOP
         --^
         DO    WIDTH-40
         BRK
         ELSE
         RTS
         FIN
FINISH   EQU   *
SIZE     EQU   FINISH-START
         DFB   SIZE&255,SIZE/256
