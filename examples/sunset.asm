; sunset.asm: an evening by the sea, of which the board holds only the upper half.
;
; The board draws a picture line by line, one in 192 T-states, each with what its RAM and its ports hold at that moment.
; So a program that counts T-states can change them between two lines:
;
; - from line 112 on the flip bit is set. A flipped picture is turned by half a circle, so that line 112 shows line 111
;   again, line 113 line 110, and so on: the water mirrors the sky, at no cost;
; - as soon as a row of cells is drawn, its palettes are changed for darker ones: when it comes again, it is water;
; - in single lines of the water the flip bit is 0 again. They show what the cells there really hold, glitter;
; - sprites 4 to 7 are gulls, then boats, then the mirrored boats, then the mirrored gulls. With the sun's four sprites,
;   which are mirrored too, 24 stand in a picture of a board that has eight.
;
; The joystick lifts and lowers the sun. In a picture that is drawn at once nothing of this would show.

GLITTER EQU 1                   ; 0 for smooth water

; ---- The board

COLOURS EQU 4400H               ; the colour RAM, 400H after the tiles
WORK    EQU 4C00H               ; the work RAM
SPRITES EQU 4FF0H               ; code * 4 + flips and palette of eight sprites
PLACES  EQU 5060H               ; y + 31 and 272 - x of each
INTERRUPT EQU 5000H             ; written: 1 lets the vertical blank request an interrupt, 0 takes a request back
SOUND   EQU 5001H               ; written: 1 lets the voices sound
FLIP    EQU 5003H               ; written: 1 turns the picture by half a circle
JOYSTICK EQU 5000H              ; read: UP is bit 0, DOWN bit 3; what is held is 0
WATCHDOG EQU 50C0H              ; written: at least each 16 frames, or the board resets
WAVEFORM EQU 5045H              ; the first voice's; those of the others are 5 and 10 further on
VOICE   EQU 5051H               ; four nibbles of frequency, the lowest first, then the volume
VOLUME  EQU VOICE+4

CELLS   EQU 4040H               ; the cell in column 2, row 0. The two columns at either side stay black
ROW     EQU 32                  ; from a row to the next
TINTS   EQU CELLS+400H          ; the palettes of the cells

LINE    EQU 192                 ; T-states a line
TOP     EQU 41*LINE             ; from the vertical blank to line 0

; ---- The set: tiles, sprites, palettes

DITHER  EQU 06H                 ; from a band of the sky to the next
SHORE   EQU 04H
ROCK    EQU 08H
DIM     EQU 0AH                 ; glitter
BRIGHT  EQU 0BH
RISING1 EQU 0CH                 ; a slope in two halves
RISING2 EQU 0DH
FALLING1 EQU 0EH
FALLING2 EQU 0FH

SUN     EQU 10*4                ; its upper left quarter
BOAT    EQU 11*4
GULL    EQU 12*4
FLIPX   EQU 1
FLIPY   EQU 2

SUNNY   EQU 13                  ; palettes of sprites
FAR     EQU 14
SKY     EQU 16                  ; palettes of the sky, from its top to the horizon
WATER   EQU 24                  ; and of the water
PATH    EQU 20                  ; of the sun's glitter

; ---- What the program keeps

CLOCK   EQU WORK                ; frames, modulo 256
SUNY    EQU WORK+1              ; the sun's y + 31
SAVED   EQU WORK+2              ; the stack pointer
LIST    EQU WORK+4
GULLS   EQU WORK+10H            ; sprites 4 to 7: eight bytes for SPRITES, eight for PLACES
GULLS2  EQU GULLS+10H           ; the same, mirrored
BOATS   EQU GULLS2+10H
BOATS2  EQU BOATS+10H
STACK   EQU SPRITES

; ---- The start. The interrupt's work stands at the address to which mode 1 goes.

        LD SP,STACK
        JP START

        ORG 38H
        JP FRAME                ; 10

; ---- A frame, from its vertical blank on. The blank finds the processor in HALT, whose steps take 4 T-states, and
; acceptance takes 13, so that address 38H is reached 13 to 16 T-states after the blank. From here on each instruction's
; T-states stand beside it, and no way is shorter than another. Nothing is saved: the main program only waits.

FRAME:  LD (SAVED),SP           ; 20
        XOR A                   ; 4
        LD (FLIP),A             ; 13  the sky is upright
        LD (WATCHDOG),A         ; 13
        LD (INTERRUPT),A        ; 13  takes the request back, for boards that keep it after its acceptance
        INC A                   ; 4
        LD (INTERRUPT),A        ; 13  and lets the next blank request
        LD HL,CLOCK             ; 10
        INC (HL)                ; 11  = 101

        LD A,(JOYSTICK)         ; 13  the sun goes by -1, 0 or 1
        CPL                     ; 4   what is held is now 1
        LD C,A                  ; 4
        AND 1                   ; 7
        LD B,A                  ; 4   1 for UP
        LD A,C                  ; 4
        RRCA                    ; 4
        RRCA                    ; 4
        RRCA                    ; 4
        AND 1                   ; 7   1 for DOWN
        SUB B                   ; 4
        LD HL,SUNY              ; 10
        ADD A,(HL)              ; 7
        LD (HL),A               ; 7
        LD (PLACES),A           ; 13
        LD (PLACES+2),A         ; 13
        ADD A,16                ; 7
        LD (PLACES+4),A         ; 13
        LD (PLACES+6),A         ; 13  = 142

        LD A,(CLOCK)            ; 13  the gulls fly to the right, a pixel in two frames,
        AND 1                   ; 7
        NEG                     ; 8
        LD C,A                  ; 4
        LD A,(CLOCK)            ; 13  and beat their wings
        RRCA                    ; 4
        RRCA                    ; 4
        AND FLIPY               ; 7
        ADD A,GULL              ; 7
        LD D,A                  ; 4
        INC A                   ; 4   FLIPX besides
        LD E,A                  ; 4
        LD IX,GULLS             ; 14
        CALL MOVE               ; 17  = 110
        LD A,(CLOCK)            ; 13  the boats sail to the left, a pixel in four frames
        AND 3                   ; 7
        INC A                   ; 4
        RRCA                    ; 4
        RRCA                    ; 4
        AND 1                   ; 7
        LD C,A                  ; 4
        LD DE,BOAT*257+FLIPX    ; 10  BOAT in D, BOAT + FLIPX in E
        LD IX,BOATS             ; 14
        CALL MOVE               ; 17  = 84

        LD A,(CLOCK)            ; 13  the third voice swells and fades
        LD C,A                  ; 4
        ADD A,A                 ; 4
        SBC A,A                 ; 4   all ones in the second half of 256 frames
        XOR C                   ; 4
        RRCA                    ; 4
        RRCA                    ; 4
        RRCA                    ; 4
        RRCA                    ; 4
        AND 7                   ; 7
        LD (VOLUME+10),A        ; 13  = 65

        LD HL,TINTSKY           ; 10  the sky's palettes, in 13 rows of cells, pushed as if they were words
        LD IX,TINTS+ROW         ; 14
        LD B,13                 ; 7   = 31
PAINT:  LD SP,IX                ; 10
        LD E,(HL)               ; 7
        INC HL                  ; 6
        LD D,E                  ; 4
        DEFS ROW/2,0D5H         ; 176 PUSH DE, 16 times
        LD DE,ROW               ; 10
        ADD IX,DE               ; 15
        DJNZ PAINT              ; 13  = 241 a row, but for the last 236

        LD BC,DELAY             ; 10  until line 7 is drawn
WAIT:   DEC BC                  ; 6
        LD A,B                  ; 4
        OR C                    ; 4
        JR NZ,WAIT              ; 12  = 26 * DELAY + 5

; ---- The upper half: as soon as a row of cells is drawn, it gets the water's palette. One row takes eight lines.

        LD HL,TINTWATER         ; 10
        LD IX,TINTS+ROW         ; 14
        LD B,13                 ; 7
        EXX                     ; 4
        LD HL,SETS              ; 10
        EXX                     ; 4   = 49
UPPER:  LD SP,IX                ; 10
        LD E,(HL)               ; 7
        INC HL                  ; 6
        LD D,E                  ; 4
        DEFS ROW/2,0D5H         ; 176 PUSH DE, 16 times
        LD DE,ROW               ; 10
        ADD IX,DE               ; 15  = 228
        EXX                     ; 4   four sprites for the rows to come
        LD E,(HL)               ; 7
        INC HL                  ; 6
        LD D,(HL)               ; 7
        INC HL                  ; 6
        LD (LIST),HL            ; 16
        EX DE,HL                ; 4
        LD DE,SPRITES+8         ; 10
        LD BC,8                 ; 10
        LDIR                    ; 163
        LD DE,PLACES+8          ; 10
        LD BC,8                 ; 10
        LDIR                    ; 163
        LD HL,(LIST)            ; 16
        EXX                     ; 4   = 436
        LD C,53                 ; 7   16 * 53 + 2 = 850
UPPER1: DEC C                   ; 4
        JR NZ,UPPER1            ; 12
        RET C                   ; 5   never: ADD IX,DE left no carry
        NOP                     ; 4
        DJNZ UPPER              ; 13  = 1,536 a row, but for the last 1,531

; ---- The water: each line has its flip bit.

        LD HL,GLINTS+15         ; 10  the glitter runs downwards, a line in four frames
        LD A,(CLOCK)            ; 13
        RRCA                    ; 4
        RRCA                    ; 4
        AND 15                  ; 7
        LD E,A                  ; 4
        LD D,0                  ; 7
        SBC HL,DE               ; 15
        LD B,36                 ; 7   = 71
LOWER:  LD A,(HL)               ; 7
        LD (FLIP),A             ; 13
        INC HL                  ; 6
        LD C,9                  ; 7   16 * 9 + 2 = 146
LOWER1: DEC C                   ; 4
        JR NZ,LOWER1            ; 12
        LD A,0                  ; 7
        DJNZ LOWER              ; 13  = 192 a line, but for the last 187

        LD A,1                  ; 7   three lines without glitter, in which gulls take the boats' place
        LD (FLIP),A             ; 13
        EXX                     ; 4
        LD HL,GULLS2            ; 10
        LD DE,SPRITES+8         ; 10
        LD BC,8                 ; 10
        LDIR                    ; 163
        LD DE,PLACES+8          ; 10
        LD BC,8                 ; 10
        LDIR                    ; 163
        EXX                     ; 4   = 404
        LD BC,72*256+10         ; 10  72 lines more, and 16 * 10 - 5 = 155
LOWER2: DEC C                   ; 4
        JR NZ,LOWER2            ; 12
        LD A,0                  ; 7
        LD A,0                  ; 7   = 583: three lines, and the 5 and 2 that were short before and will be

LOWER3: LD A,(HL)               ; 7
        LD (FLIP),A             ; 13
        INC HL                  ; 6
        LD C,9                  ; 7   16 * 9 + 2 = 146
LOWER4: DEC C                   ; 4
        JR NZ,LOWER4            ; 12
        LD A,0                  ; 7
        DJNZ LOWER3             ; 13  = 192 a line

        LD A,(HL)               ; 7   line 223 is drawn at the next blank, and the processor waits for that in HALT
        LD (FLIP),A             ; 13
        LD SP,(SAVED)           ; 20
        EI                      ; 4
        RET                     ; 10

; Four sprites go by C, with the codes D, and E in the mirror. A turned picture mirrors left and right too; so in the
; mirror a sprite that stands x pixels from the left has the byte x, in place of 272 - x.
MOVE:   LD B,4                  ; 7
MOVE1:  LD (IX),D               ; 19
        LD (IX+16),E            ; 19
        LD A,(IX+9)             ; 19
        ADD A,C                 ; 4
        LD (IX+9),A             ; 19
        NEG                     ; 8
        ADD A,16                ; 7
        LD (IX+25),A            ; 19
        INC IX                  ; 10
        INC IX                  ; 10
        DJNZ MOVE1              ; 13  = 147 a sprite, but for the last 142
        RET                     ; 10

; From 38H to UPPER: JP FRAME, the parts above, MOVE twice, then WAIT. Of WAIT's rounds as few are done as reach line 7:
; UPPER is reached 12 to 15 T-states after that line was drawn.
MOVES   EQU 7+147*4-5+10
BEFORE  EQU 10+101+142+110+84+2*MOVES+65+31+241*13-5
DELAY   EQU (TOP+7*LINE-13-BEFORE-5-49+25)/26

; What sprites 4 to 7 become as soon as each row of cells from 0 to 12 is drawn: gulls in the sky, boats at the horizon,
; and after the last row that has boats the boats in the mirror.
SETS:   DEFW GULLS,GULLS,GULLS,GULLS,GULLS,GULLS,GULLS
        DEFW BOATS,BOATS,BOATS,BOATS,BOATS,BOATS2

; The palettes of these rows, in the sky and in the water.
TINTSKY: DEFB SKY,SKY,SKY,SKY+1,SKY+1,SKY+2,SKY+2,SKY+3,SKY+3,SKY+4,SKY+4,SKY+5,SKY+5
TINTWATER: DEFB WATER,WATER,WATER,WATER+1,WATER+1,WATER+2,WATER+2
        DEFB WATER+3,WATER+3,WATER+4,WATER+4,WATER+5,WATER+5

; The flip bit of the water's lines: 16 in a wave. 112 are shown, from one of 16 places on.
GLINTS:
        IF GLITTER
        DEFB 1,1,1,0,1,1,1,1,0,1,1,1,1,1,0,1
        DEFB 1,1,1,0,1,1,1,1,0,1,1,1,1,1,0,1
        DEFB 1,1,1,0,1,1,1,1,0,1,1,1,1,1,0,1
        DEFB 1,1,1,0,1,1,1,1,0,1,1,1,1,1,0,1
        DEFB 1,1,1,0,1,1,1,1,0,1,1,1,1,1,0,1
        DEFB 1,1,1,0,1,1,1,1,0,1,1,1,1,1,0,1
        DEFB 1,1,1,0,1,1,1,1,0,1,1,1,1,1,0,1
        DEFB 1,1,1,0,1,1,1,1,0,1,1,1,1,1,0,1
        ELSE
        DEFS 128,1
        ENDIF

; ---- The main program: it draws the scene, then waits.

START:  LD HL,WORK              ; the gulls and boats
        LD DE,WORK+1
        LD BC,8
        LD (HL),0
        LDIR
        LD HL,FLOCK
        LD DE,GULLS
        LD BC,64
        LDIR
        LD A,56+31
        LD (SUNY),A
        LD HL,SUNS              ; the sun, of one quarter and its flips
        LD DE,SPRITES
        LD BC,8
        LDIR
        LD DE,PLACES
        LD BC,8
        LDIR

        LD HL,BANDS             ; the sky's bands, row by row
        LD DE,CELLS
        LD C,14
SCENE1: LD A,(HL)
        INC HL
        LD B,ROW
SCENE2: LD (DE),A
        INC DE
        DJNZ SCENE2
        DEC C
        JR NZ,SCENE1
        LD HL,TINTS+13*ROW      ; the row at the horizon keeps its palette
        LD DE,TINTS+13*ROW+1
        LD BC,ROW-1
        LD (HL),SKY+5
        LDIR

        LD DE,CELLS+14*ROW      ; the glitter, with the palettes of the water that it stands in
        LD HL,TINTWATER+12
        LD C,14
        LD A,WATER+5
SCENE3: LD B,ROW
SCENE4: PUSH AF
        LD A,B
        SUB 15                  ; the four columns in the middle are brighter
        CP 4
        LD A,DIM
        JR NC,SCENE5
        LD A,BRIGHT
SCENE5: LD (DE),A
        CP BRIGHT
        JR NZ,SCENE6
        LD A,PATH
        JR SCENE7
SCENE6: POP AF
        PUSH AF
SCENE7: SET 2,D                 ; from the tile RAM to the colour RAM
        LD (DE),A
        RES 2,D
        INC DE
        POP AF
        DJNZ SCENE4
        LD A,(HL)
        DEC HL
        DEC C
        JR NZ,SCENE3

        LD HL,HILLS             ; the mountains, in a list of places, lengths and tiles
SCENE8: LD E,(HL)
        INC HL
        LD D,(HL)
        INC HL
        LD A,D
        OR A
        JR Z,SCENE9
        LD C,(HL)
        INC HL
        LD B,0
        LDIR
        JR SCENE8

SCENE9: LD HL,VOICE             ; a chord: A, E and a second A that beats with the first
        LD DE,2200*256/3750     ; a frequency is 2^20 / 96,000 times its Hertz, without its lowest nibble, and Hertz
        CALL PITCH              ; stand here in tenths
        LD (HL),4
        INC HL
        LD DE,3296*256/3750
        CALL PITCH
        LD (HL),3
        INC HL
        LD DE,4409*256/3750
        CALL PITCH              ; its volume is the interrupt's work
        LD A,1
        LD (SOUND),A
        LD (INTERRUPT),A
        IM 1
        EI
REST:   HALT
        JR REST

; The voice at HL gets the frequency DE, nibble by nibble: the board keeps the low four bits of each byte. HL is then
; at the voice's volume.
PITCH:  CALL PITCH1
        LD E,D
PITCH1: LD (HL),E
        INC HL
        LD A,E
        RRCA
        RRCA
        RRCA
        RRCA
        LD (HL),A
        INC HL
        RET

BANDS:  DEFB 0,0,DITHER,0,DITHER,0,DITHER,0,DITHER,0,DITHER,0,0,SHORE

HILLS:  DEFW CELLS+10*ROW
        DEFB 2, FALLING1,FALLING2
        DEFW CELLS+11*ROW
        DEFB 4, ROCK,ROCK,FALLING1,FALLING2
        DEFW CELLS+12*ROW
        DEFB 6, ROCK,ROCK,ROCK,ROCK,FALLING1,FALLING2
        DEFW CELLS+13*ROW
        DEFB 12, ROCK,ROCK,ROCK,ROCK,ROCK,ROCK,FALLING1,FALLING2,RISING1,RISING2,FALLING1,FALLING2
        DEFW CELLS+10*ROW+30
        DEFB 2, RISING1,RISING2
        DEFW CELLS+11*ROW+28
        DEFB 4, RISING1,RISING2,ROCK,ROCK
        DEFW CELLS+12*ROW+26
        DEFB 6, RISING1,RISING2,ROCK,ROCK,ROCK,ROCK
        DEFW CELLS+13*ROW+20
        DEFB 12, RISING1,RISING2,FALLING1,FALLING2,RISING1,RISING2,ROCK,ROCK,ROCK,ROCK,ROCK,ROCK
        DEFW 0

; The gulls, the mirrored gulls, the boats, the mirrored boats: four sprites each.
FLOCK:  DEFB GULL,FAR, GULL,FAR, GULL,FAR, GULL,FAR
        DEFB 10+31,272-60, 20+31,272-84, 26+31,272-48, 34+31,272-180
        DEFB GULL,FAR, GULL,FAR, GULL,FAR, GULL,FAR
        DEFB 10+31,60, 20+31,84, 26+31,48, 34+31,180
        DEFB BOAT,FAR, BOAT,FAR, BOAT,FAR, BOAT,FAR
        DEFB 88+31,272-70, 88+31,272-98, 88+31,272-176, 88+31,272-206
        DEFB BOAT,FAR, BOAT,FAR, BOAT,FAR, BOAT,FAR
        DEFB 88+31,70, 88+31,98, 88+31,176, 88+31,206

SUNS:   DEFB SUN,SUNNY, SUN+FLIPX,SUNNY, SUN+FLIPY,SUNNY, SUN+FLIPX+FLIPY,SUNNY
        DEFB 56+31,272-128, 56+31,272-144, 72+31,272-128, 72+31,272-144
