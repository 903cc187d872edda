; The mixed program, which bench/ measures: arithmetic, loads and calls, all of tile RAM rewritten about once a frame, sound in three
; voices, eight sprites that move, and an interrupt a frame that kicks the watchdog.
TILES   EQU 4000H               ; tile RAM, and the page after it
COLOURS EQU 4400H
COLOUR_PAGE EQU 44H
SEED    EQU 4C00H               ; of the numbers
CELLS   EQU 4C02H               ; bytes that IX reaches
FRAMES  EQU 4C0FH
PLACES  EQU 4C10H               ; the sprites' coordinates, which can't be read back
LOOKS   EQU 4FF0H               ; the sprites' codes and colours
STACK   EQU 4FF0H
ENABLE  EQU 5000H
SOUND   EQU 5001H
WAVES   EQU 5040H
COORDS  EQU 5060H
KICK    EQU 50C0H

        JP START

        ORG 38H                 ; the interrupt, once a frame
        PUSH AF
        PUSH BC
        PUSH DE
        PUSH HL
        LD (KICK),A
        LD HL,FRAMES
        INC (HL)
        LD A,(HL)
        LD (WAVES+11H),A        ; the first voice glides
        LD HL,PLACES
        LD DE,COORDS
        LD B,16
MOVE:   INC (HL)
        BIT 0,B
        JR Z,ACROSS
        DEC (HL)
        DEC (HL)
ACROSS: LD A,(HL)
        LD (DE),A
        INC HL
        INC DE
        DJNZ MOVE
        POP HL
        POP DE
        POP BC
        POP AF
        EI
        RET

START:  LD SP,STACK
        LD HL,COLOURS           ; every cell has a colour
PAINT:  LD A,L
        AND 1FH
        LD (HL),A
        INC HL
        LD A,H
        CP COLOUR_PAGE+4
        JR NZ,PAINT
        LD HL,WAVE              ; three voices
        LD DE,WAVES
        LD BC,32
        LDIR
        LD HL,LOOK              ; eight sprites
        LD DE,LOOKS
        LD BC,16
        LDIR
        LD HL,PLACE
        LD DE,PLACES
        LD BC,16
        LDIR
        IM 1
        LD A,1
        LD (SOUND),A
        LD (ENABLE),A
        EI

MAIN:   LD HL,TILES
ROW:    CALL MIX
        LD B,32
CELL:   LD A,D
        ADD A,L
        XOR E
        LD (HL),A
        INC HL
        DJNZ CELL
        LD A,H
        CP COLOUR_PAGE
        JR NZ,ROW
        JR MAIN

MIX:    PUSH HL                 ; the next numbers, in D and E
        LD HL,(SEED)
        LD D,H
        LD E,L
        ADD HL,HL
        ADD HL,HL
        ADD HL,DE
        LD DE,4321H
        ADC HL,DE
        LD (SEED),HL
        EX DE,HL
        LD IX,CELLS
        INC (IX+3)
        LD A,(IX+3)
        SUB D
        DAA
        SRL A
        RES 6,A
        LD (IX+4),A
        CALL TWIST
        POP HL
        RET

TWIST:  LD C,A
        RLCA
        OR C
        JP P,KEEP
        CPL
        NEG
KEEP:   LD (CELLS),A
        RET

WAVE:   DEFB 0,0,0,0,0,1,0,0,0,0,2,0,0,0,0,3
        DEFB 1,2,3,1,0,12,5,6,1,0,10,9,4,2,0,8
LOOK:   DEFB 4,1,9,2,14,3,19,4,24,5,29,6,34,7,39,8
PLACE:  DEFB 40,60,60,80,80,100,100,120,120,140,140,160,160,180,180,200
