; hello.asm: HELLO in the middle of the picture, to begin from. A letter's tile has the letter's own code.
WHERE   EQU 4040H+13*32+14      ; column 16, row 13: 32 cells a row, and column 2 is the first of them

        LD HL,TEXT
        LD DE,WHERE
        LD BC,LENGTH
        LDIR
STAY:   LD (50C0H),A            ; tells the watchdog that the program lives
        JR STAY

TEXT:   DEFM 'HELLO'
LENGTH  EQU $-TEXT
