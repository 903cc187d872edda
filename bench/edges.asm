; edges.asm: eight sprites that go over each edge, upright for 16 frames and flipped for 16, and a cell that changes while a picture is drawn.
        JP START
        ORG 38H
        LD (50C0H),A
        XOR A
        LD (5000H),A
        INC A
        LD (5000H),A
        LD HL,4C00H
        INC (HL)
        LD A,(HL)
        LD HL,PLACES
        LD DE,5060H
        LD B,16
NEXT:   LD A,(4C00H)
        ADD A,(HL)
        LD (DE),A
        INC HL
        INC DE
        DJNZ NEXT
        LD A,(4C00H)
        RRCA
        RRCA
        RRCA
        RRCA
        LD (5003H),A
        EI
        RET
START:  LD SP,4FF0H
        LD HL,CODES
        LD DE,4FF0H
        LD BC,16
        LDIR
        LD HL,4040H
        LD DE,4041H
        LD BC,37FH
        LD (HL),20H
        LDIR
        LD A,41H
        LD (4040H+64+5),A
        LD A,2
        LD (4440H+64+5),A
        LD A,1
        LD (5000H),A
        IM 1
        EI
REST:   LD HL,4C10H
SPIN:   INC (HL)
        LD A,(HL)
        LD (4040H+200),A
        JR SPIN
CODES:  DEFB 4,8,8,8,13,10,18,10,20,9,28,9,39,11,40,13
PLACES: DEFB 40,10,60,4,80,100,100,8,120,12,140,250,160,1,5,2
