; Races the beam: from blank to blank it writes tiles and colours of two columns of cells again and again, each time others, gives the eight
; sprites new places and looks while they are being shown, turns the picture over in the midst of a frame, and changes a digit of the
; voices each time. No frame is like another one.

        ORG 0
        IM 1
        LD SP,4FF0H
        LD A,1
        LD (5000H),A
        LD (5001H),A            ; sound is on
        EI
        JP MAIN

        ORG 38H
        PUSH AF
        LD A,(FRAME)
        INC A
        LD (FRAME),A
        LD (50C0H),A
        JR NZ,SAME
        LD A,(ROUNDS)
        ADD A,37
        LD (ROUNDS),A
SAME:   LD A,(FRAME)
        AND 31
        LD (LEFT),A
        XOR A
        LD (5000H),A
        INC A
        LD (5000H),A
        POP AF
        EI
        RET

FRAME:  EQU 4C00H
LEFT:   EQU 4C01H
ROUNDS: EQU 4C02H               ; 37 more for each 256 frames

MAIN:   LD IX,4FF0H
        LD IY,5060H
        LD B,0
ROUND:  LD HL,4440H             ; the colours of the rows, two cells in each
        LD A,(ROUNDS)
        LD C,A
        LD A,(FRAME)
        ADD A,C
        LD C,A
        LD DE,32
ROW:    LD A,C
        ADD A,B
        LD (HL),A               ; a colour
        INC HL
        XOR 5AH
        LD (HL),A
        RES 2,H                 ; and a tile of the same cell
        LD (HL),A
        SET 2,H
        ADD HL,DE
        DEC HL
        INC C
        LD A,H
        CP 48H
        JR C,ROW
        LD A,C                  ; a sprite on its way: which one, where, and how it looks
        AND 14
        LD E,A
        LD D,0
        PUSH HL
        LD HL,4FF0H
        ADD HL,DE
        LD A,C
        ADD A,B
        LD (HL),A
        INC HL
        LD (HL),B
        LD HL,5060H
        ADD HL,DE
        LD A,(LEFT)
        ADD A,C
        LD (HL),A
        INC HL
        LD A,B
        ADD A,C
        LD (HL),A
        LD HL,5040H             ; a digit of the voices
        LD A,B
        AND 31
        LD E,A
        ADD HL,DE
        LD (HL),C
        POP HL
        LD A,B
        AND 3FH
        JR NZ,KEPT
        LD A,(FRAME)
        RRA
        RRA
        XOR B
        RLCA
        RLCA
        LD (5003H),A            ; the picture over, or back
KEPT:   INC B
        LD A,B
        AND 0FH
        JR NZ,ROUND
        LD A,(FRAME)
        AND 3
        JR NZ,ROUND
        HALT                    ; each fourth frame it waits for the blank
        JR ROUND
