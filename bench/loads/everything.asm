; Writes pseudo-random bytes to pseudo-random places: tiles, colours, sprites, sound, latch and watchdog, at any moment of a frame, and
; sleeps now and then until an interrupt comes or the watchdog bites. So nothing that the board leaves out because it did the same before
; stays the same for long. No byte of it means anything; it is compared with a plain program, bench/film.py.

TILES:  EQU 4000H               ; 1,024 bytes, then 1,024 of colours
SPRITES: EQU 4FF0H              ; 16 bytes of attributes
LATCH:  EQU 5000H               ; with sound and the sprites' coordinates, up to 506FH
DOG:    EQU 50C0H
BLANKS: EQU 4C00H               ; a count of them, 16 bits

        ORG 0
        IM 1
        LD A,H                  ; a reset leaves HL, and so the numbers go on
        OR L
        JR NZ,BEGIN
        LD HL,0ACE1H
BEGIN:  LD SP,4FF0H
        LD A,1
        LD (LATCH),A            ; interrupts are let through
        EI
        JP WORK

        ORG 38H
        PUSH AF                 ; the interrupt of a blank
        PUSH HL
        LD HL,(BLANKS)
        INC HL
        LD (BLANKS),HL
        POP HL
        CALL NEXT
        CP 32
        JR C,FED                ; an eighth of the blanks leaves the watchdog hungry
        LD (DOG),A
FED:    LD A,1
        LD (LATCH),A
        POP AF
        EI
        RET

; the next number, in HL, and in A its sum with what is held and with the count of the blanks
NEXT:   LD A,H
        RRA
        LD A,L
        RRA
        XOR H
        LD H,A
        LD A,L
        RRA
        LD A,H
        RRA
        XOR L
        LD L,A
        XOR H
        LD H,A
        PUSH HL
        LD HL,5000H             ; IN0
        XOR (HL)
        LD L,40H                ; IN1
        ADD A,(HL)
        LD HL,BLANKS
        ADD A,(HL)
        INC HL
        XOR (HL)
        POP HL
        RET

WORK:   CALL NEXT
        CP 8
        JR NC,WRITE
        CALL NEXT
        CP 24
        JR NC,WRITE
        HALT                    ; now and then it sleeps
WRITE:  CALL NEXT
        LD C,A                  ; what is written
        CALL NEXT
        LD D,H
        LD E,L
        CP 160
        JR C,CELL
        CP 208
        JR C,SPRITE
        LD A,E                  ; latch, sound and coordinates
        AND 7FH
        LD E,A
        LD D,LATCH/256
        CP 8
        JR NC,STORE
        LD A,D                  ; the latch itself once in a while
        CALL NEXT
        CP 8
        JR NC,WORK
        LD D,LATCH/256
        JR STORE
SPRITE: LD A,E                  ; a sprite's attributes, or its coordinates, which are at 5060H
        AND 1FH
        ADD A,0F0H
        LD E,A
        LD D,SPRITES/256
        JR NC,STORE
        ADD A,60H
        LD E,A
        LD D,LATCH/256
        JR STORE
CELL:   LD A,D                  ; a cell's tile or colour
        AND 7
        ADD A,TILES/256
        LD D,A
STORE:  LD A,C
        LD (DE),A
        JR WORK
