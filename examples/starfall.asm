; starfall.asm: a small game. Stars fall from the night sky; the boat that the joystick steers catches them.
;
; It shows how a program lives on the board: the interrupt of the vertical blank plays a tune on the three voices, hands
; the sprites to the board and kicks the watchdog, 60 times a second; the main program waits for it, then moves
; everything by a step. The board can't scroll, so the sea does it by tiles that are drawn at each of eight places.

STARS   EQU 4                   ; how many fall at once, 1 to 4
SINGING EQU 1                   ; 0 for silence

; ---- The board

TILES   EQU 4000H               ; the tile RAM
COLOURS EQU 4400H               ; the colour RAM, of the same size
SIZE    EQU 400H
WORK    EQU 4C00H               ; the work RAM
SPRITES EQU 4FF0H               ; its last 16 bytes: code * 4 + flips and palette of eight sprites
PLACES  EQU 5060H               ; y + 31 and 272 - x of each: a greater x byte is further to the left
INTERRUPT EQU 5000H             ; written: 1 lets the vertical blank request an interrupt, 0 takes a request back
SOUND   EQU 5001H               ; written: 1 lets the voices sound
JOYSTICK EQU 5000H              ; read: what is held is 0
BUTTONS EQU 5040H
WATCHDOG EQU 50C0H              ; written: at least each 16 frames, or the board resets
WAVEFORM EQU 5045H              ; the first voice's; those of the others are 5 and 10 further on
VOICE   EQU 5051H               ; four nibbles of frequency, the lowest first, then the volume

UP      EQU 0                   ; bits of JOYSTICK
LEFT    EQU 1
RIGHT   EQU 2
DOWN    EQU 3
START1  EQU 5                   ; a bit of BUTTONS

CELLS   EQU TILES+40H           ; the cell in column 2, row 0
ROW     EQU 32                  ; from a row to the next
TINT    EQU COLOURS-TILES       ; from a cell's tile to its palette
COLUMN0 EQU TILES+3C2H          ; row 0 of the two columns on the left; column 1 is 20H further on
COLUMN34 EQU TILES+2            ; and on the right

; ---- The set: tiles, sprites, palettes, waveforms

SMALL   EQU 02H                 ; stars of the sky
LARGE   EQU 03H
DEEP    EQU 05H                 ; the open sea
MOON    EQU 60H                 ; the first of 16
CREST   EQU 70H                 ; two tiles for each of eight places
HILLS   EQU 80H                 ; eight tiles for each of eight places

SAIL    EQU 1*4                 ; sprites
HULL    EQU 2*4
WINGSUP EQU 3*4
WINGSDOWN EQU 4*4
STAR    EQU 5*4                 ; the next one twinkles
BURST   EQU 7*4
SPLASH  EQU 8*4
BUOY    EQU 9*4
FLIPX   EQU 1

PLAIN   EQU 0                   ; palettes
CHALK   EQU 1
GOLD    EQU 2
SHORE   EQU 3
GREEN   EQU 4
SEA     EQU 5
BOAT    EQU 8
SHINING EQU 9
FEATHER EQU 10
PAINTED EQU 11
SPRAY   EQU 12

FLUTE   EQU 0                   ; waveforms
TRIANGLE EQU 1
ORGAN   EQU 5

; ---- What the program keeps

CLOCK   EQU WORK                ; frames since the start, modulo 256
PLAYING EQU WORK+1              ; 0 until START 1 is pressed
CAUGHT  EQU WORK+2              ; two decimal digits each
LOST    EQU WORK+3
SEED    EQU WORK+4              ; of the random numbers
BOATY   EQU WORK+5              ; the boat's y + 31, when no wave lifts it
CHIME   EQU WORK+6              ; frames for which a caught star still rings
BEAT    EQU WORK+7              ; frames until the tune's next step
STEP    EQU WORK+8              ; the step to come
TICK    EQU WORK+0EH            ; where the ticker's text begins now: two bytes
STATES  EQU WORK+10H            ; four bytes for each star:
STATE   EQU 0                   ; what it does
COUNT   EQU 1                   ; for how many frames more
SPEED   EQU 2                   ; how fast it falls
SHAPE   EQU WORK+20H            ; what the next vertical blank copies to SPRITES,
PLACE   EQU WORK+30H            ; and to PLACES
VOLUMES EQU WORK+55H            ; of the voices, five bytes apart, as they are at VOICE + 4
STACK   EQU SPRITES

WAITING EQU 0                   ; states of a star
FALLING EQU 1
GONE    EQU 2

; ---- The start

        LD SP,STACK
        LD HL,WORK              ; a page of it 0: a reset by the watchdog leaves the RAM as it was
        LD DE,WORK+1
        LD BC,0FFH
        LD (HL),0
        LDIR
        LD HL,SPRITES0
        LD DE,SHAPE
        LD BC,32
        LDIR
        LD A,152+31
        LD (BOATY),A
        LD A,1
        LD (BEAT),A
        LD A,201
        LD (SEED),A
        CALL SCENE
        CALL SHUFFLE

        LD A,FLUTE              ; the voices: a tune, its bass, a harp
        LD (WAVEFORM),A
        LD A,TRIANGLE
        LD (WAVEFORM+5),A
        LD A,ORGAN
        LD (WAVEFORM+10),A

        LD A,VECTORS/256        ; interrupts by the table VECTORS, in mode 2
        LD I,A
        LD A,VECTORS-VECTORS/256*256
        OUT (0),A
        IM 2
        LD A,1
        LD (SOUND),A
        LD (INTERRUPT),A
        EI

MAIN:   HALT                    ; until the next vertical blank
        CALL SCROLL
        CALL TICKER
        CALL STEER
        CALL TITLE
        CALL FALL
        CALL FLY
        CALL SCORE
        JR MAIN

        ORG 100H
VECTORS: DEFW FRAME

; ---- The interrupt of the vertical blank. The picture's first line comes 7,872 T-states after it.

FRAME:  PUSH AF
        PUSH BC
        PUSH DE
        PUSH HL
        LD HL,SHAPE             ; the sprites, while nothing is drawn
        LD DE,SPRITES
        LD BC,16
        LDIR
        LD DE,PLACES
        LD BC,16
        LDIR
        LD HL,CLOCK
        INC (HL)
        IF SINGING
        CALL SING
        CALL RING
        ENDIF
        LD (WATCHDOG),A         ; any byte will do
        XOR A                   ; 0 takes the request back. Here its acceptance has done so; on MAME's board and, as far
        LD (INTERRUPT),A        ; as is known, on the cabinet it stands until then, and would interrupt again after EI
        INC A
        LD (INTERRUPT),A        ; the next blank may request
        POP HL
        POP DE
        POP BC
        POP AF
        EI
        RETI

; A frame of the tune: a step takes TEMPO of them. Between the steps each voice grows softer.
SING:   LD A,(CLOCK)
        AND 3
        CALL Z,FADE
        LD HL,BEAT
        DEC (HL)
        RET NZ
        LD (HL),TEMPO
        LD A,(STEP)
        LD C,A
        INC A
        CP LENGTH
        JR NZ,SING1
        XOR A
SING1:  LD (STEP),A
        LD B,0
        SLA C                   ; two bytes a step
        LD HL,TUNE
        LD DE,VOICE
        LD A,12
        CALL NOTE
        LD HL,BASS
        LD DE,VOICE+5
        LD A,11
        CALL NOTE
        LD HL,HARP
        LD DE,VOICE+10
        LD A,8

; The voice at DE begins the note of the step BC in the list at HL, with the volume A; a 0 there lets the note before
; sound on. Keeps BC.
NOTE:   PUSH AF
        ADD HL,BC
        LD A,(HL)
        INC HL
        LD H,(HL)
        LD L,A
        OR H
        JR Z,NOTE1
        EX DE,HL                ; the frequency in DE, the voice in HL
        CALL PITCH
        POP AF
        LD (HL),A               ; the volume, to the board,
        LD H,WORK/256
        LD (HL),A               ; and to VOLUMES, whose low bytes are the same
        RET
NOTE1:  POP AF
        RET

; The voice at HL gets the frequency DE, nibble by nibble: the board keeps the low four bits of each byte. HL is then
; at the voice's volume.
PITCH:  CALL PITCH1
        LD E,D
PITCH1: LD (HL),E
        INC HL
        LD A,E
        RRCA
        RRCA
        RRCA
        RRCA
        LD (HL),A
        INC HL
        RET

; Each voice that is louder than its rest grows softer by one.
FADE:   LD HL,VOLUMES
        LD C,5                  ; the tune's rest, then the bass', then the harp's
        CALL FADE1
        LD C,4
        CALL FADE1
        LD C,1
FADE1:  LD A,(HL)
        CP C
        JR Z,FADE2
        JR C,FADE2
        DEC A
        LD (HL),A
        LD H,VOICE/256
        LD (HL),A
        LD H,WORK/256
FADE2:  LD A,L                  ; the next voice
        ADD A,5
        LD L,A
        RET

; A caught star rings on the harp's voice, higher and higher.
RING:   LD A,(CHIME)
        OR A
        RET Z
        DEC A
        LD (CHIME),A
        LD D,A
        LD A,15                 ; the frequency: 256 * (15 - CHIME / 2)
        SRL D
        SUB D
        LD D,A
        LD E,0
        LD HL,VOICE+10
        CALL PITCH
        LD A,(CHIME)
        SRL A
        LD (HL),A
        RET

; ---- The main program's parts, once a frame each

; The hills and the sea, at their speeds. CLOCK goes round in 256 frames, and each of them with it.
SCROLL: LD A,(CLOCK)
        RRCA
        RRCA
        AND 63
        LD D,7                  ; eight tiles go round,
        LD BC,8*256+HILLS       ; eight for each place
        LD HL,CELLS+17*ROW
        LD IX,COLUMN34+17
        LD IY,COLUMN0+17
        CALL ROLL
        LD A,(CLOCK)
        RRCA
        AND 15
        LD HL,CELLS+18*ROW
        LD IX,COLUMN34+18
        LD IY,COLUMN0+18
        CALL WAVES
        LD A,(CLOCK)
        AND 15
        LD HL,CELLS+20*ROW
        LD IX,COLUMN34+20
        LD IY,COLUMN0+20
        CALL WAVES
        LD A,(CLOCK)
        ADD A,A
        AND 15
        LD HL,CELLS+24*ROW
        LD IX,COLUMN34+24
        LD IY,COLUMN0+24
WAVES:  LD D,1                  ; two tiles go round, two for each place
        LD BC,2*256+CREST

; The row of cells at HL, IY and IX moved to the left by A pixels. There are B tiles for each of eight places, from the
; code C on; D is B - 1.
ROLL:   LD E,A
        AND 7
        JR Z,ROLL2
        PUSH DE
        LD E,A
        LD A,C
ROLL1:  ADD A,B                 ; the first tile of this place
        DEC E
        JR NZ,ROLL1
        LD C,A
        POP DE
ROLL2:  SRL E                   ; the tile with which it begins
        SRL E
        SRL E
        CALL NEXT
        LD (IY),A
        CALL NEXT
        LD (IY+20H),A
        LD B,ROW
ROLL3:  CALL NEXT
        LD (HL),A
        INC HL
        DJNZ ROLL3
        CALL NEXT
        LD (IX),A
        CALL NEXT
        LD (IX+20H),A
        RET

; The next tile of a row.
NEXT:   LD A,E
        AND D
        ADD A,C
        INC E
        RET

; The text at the foot, a cell further each eighth frame.
TICKER: LD A,(CLOCK)
        AND 7
        RET NZ
        LD HL,(TICK)
        LD A,(HL)
        OR A                    ; 0 ends the text
        JR NZ,TICKER1
        LD HL,NEWS
TICKER1: INC HL
        LD (TICK),HL
        DEC HL
        LD DE,CELLS+27*ROW
        LD B,ROW
TICKER2: LD A,(HL)
        OR A
        JR NZ,TICKER3
        LD HL,NEWS
        LD A,(HL)
TICKER3: LD (DE),A
        INC HL
        INC DE
        DJNZ TICKER2
        RET

; The boat goes where the joystick points, and looks there.
STEER:  LD A,(JOYSTICK)
        CPL                     ; what is held is now 1
        LD C,A
        LD HL,PLACE+1
        LD A,(HL)
        BIT LEFT,C
        JR Z,STEER1
        CP 250
        JR NC,STEER1
        INC (HL)
        INC (HL)
        LD A,FLIPX
        CALL LOOK
STEER1: LD A,(HL)
        BIT RIGHT,C
        JR Z,STEER2
        CP 24
        JR C,STEER2
        DEC (HL)
        DEC (HL)
        XOR A
        CALL LOOK
STEER2: LD A,(HL)
        LD (PLACE+3),A          ; the hull below the sails
        LD HL,BOATY
        LD A,(HL)
        BIT UP,C
        JR Z,STEER3
        CP 130+31
        JR C,STEER3
        DEC (HL)
STEER3: BIT DOWN,C
        JR Z,STEER4
        CP 180+31
        JR NC,STEER4
        INC (HL)
STEER4: LD A,(CLOCK)            ; a wave lifts it by a pixel
        RRCA
        RRCA
        RRCA
        RRCA
        AND 1
        ADD A,(HL)
        LD (PLACE),A
        ADD A,16
        LD (PLACE+2),A
        RET

; The boat's sprites, with the flip A. Keeps C and HL.
LOOK:   PUSH AF
        ADD A,SAIL
        LD (SHAPE),A
        POP AF
        ADD A,HULL
        LD (SHAPE+2),A
        RET

; Before the game a line of text blinks; START 1 begins the game and takes the title away.
TITLE:  LD A,(PLAYING)
        OR A
        RET NZ
        LD A,(BUTTONS)
        BIT START1,A
        JR Z,BEGIN
        LD HL,PUSH1
        LD A,(CLOCK)
        BIT 4,A
        JP Z,PRINT
        LD HL,PUSH0
        JP PRINT
BEGIN:  LD A,1
        LD (PLAYING),A
        LD HL,CELLS+6*ROW
        LD DE,CELLS+6*ROW+1
        LD BC,8*ROW-1
        LD (HL),0
        LDIR
        LD HL,SKY
        JP PRINT

; Each star waits, falls, and is then caught or lost.
FALL:   LD A,(PLAYING)
        OR A
        RET Z
        LD IX,STATES
        LD IY,PLACE+4           ; the stars are sprites 2 to 5
        LD B,STARS
FALL1:  PUSH BC
        CALL ONESTAR
        POP BC
        LD DE,4
        ADD IX,DE
        INC IY
        INC IY
        DJNZ FALL1
        RET

ONESTAR: LD A,(IX+STATE)
        CP FALLING
        JR Z,MOVE
        DEC (IX+COUNT)
        RET NZ
        CP GONE
        JR Z,SETTLE
        LD (IX+STATE),FALLING   ; it has waited: it falls from above the picture
        LD (IY),16
        CALL RANDOM
        AND 127
        ADD A,72
        LD (IY+1),A
        CALL RANDOM
        AND 1
        INC A
        LD (IX+SPEED),A
        LD (IY+SHAPE-PLACE),STAR
        LD (IY+SHAPE-PLACE+1),SHINING
        RET

SETTLE: LD (IX+STATE),WAITING   ; the burst or the splash is over
        LD (IY+1),0
PAUSE:  CALL RANDOM
        AND 31
        ADD A,8
        LD (IX+COUNT),A
        RET

MOVE:   LD A,(IY)
        ADD A,(IX+SPEED)
        LD (IY),A
        LD D,A
        LD A,(CLOCK)            ; it twinkles
        AND 8
        RRCA
        ADD A,STAR
        LD (IY+SHAPE-PLACE),A
        LD A,D
        CP 168+31
        JR NC,DROWN
        LD A,(PLACE)            ; is it at the boat's sails?
        SUB 8
        CP D
        RET NC
        LD A,(PLACE+1)
        SUB (IY+1)
        ADD A,12
        CP 25
        RET NC
        LD HL,CAUGHT
        LD A,BURST
        LD C,SHINING
        CALL LEAVE
        LD A,24
        LD (CHIME),A
        RET
DROWN:  LD HL,LOST
        LD A,SPLASH
        LD C,SPRAY

; The star gets the shape A and the palette C for a while, and the count at HL grows by one.
LEAVE:  LD (IY+SHAPE-PLACE),A
        LD (IY+SHAPE-PLACE+1),C
        LD (IX+STATE),GONE
        LD (IX+COUNT),20
        LD A,(HL)
        ADD A,1
        DAA
        LD (HL),A
        RET

; All stars wait, each for another while.
SHUFFLE: LD IX,STATES
        LD B,STARS
SHUFFLE1: PUSH BC
        CALL PAUSE
        POP BC
        LD DE,4
        ADD IX,DE
        DJNZ SHUFFLE1
        RET

; A random number goes to A. Keeps all but C.
RANDOM: LD A,(SEED)
        LD C,A
        ADD A,A
        ADD A,A
        ADD A,C
        ADD A,37
        LD (SEED),A
        RRCA
        RRCA
        RRCA
        RET

; The gull crosses the sky and beats its wings; the buoy drifts with the sea.
FLY:    LD HL,PLACE+13
        DEC (HL)                ; to the right
        LD A,(CLOCK)
        AND 8
        RRCA                    ; 0 or 4: the next code
        ADD A,WINGSUP
        LD (SHAPE+12),A
        LD HL,PLACE+15
        INC (HL)                ; to the left
        LD A,(CLOCK)
        BIT 5,A
        LD A,165+31
        JR Z,FLY1
        INC A
FLY1:   LD (PLACE+14),A
        RET

SCORE:  LD HL,CELLS+10
        LD A,(CAUGHT)
        CALL DIGITS
        LD HL,CELLS+28
        LD A,(LOST)
DIGITS: LD C,A
        RRCA
        RRCA
        RRCA
        RRCA
        CALL DIGIT
        LD A,C
DIGIT:  AND 15
        ADD A,'0'
        LD (HL),A
        INC HL
        RET

; ---- The scene

SCENE:  LD HL,COLOURS           ; the sky, over all
        LD DE,COLOURS+1
        LD BC,SIZE-1
        LD (HL),CHALK
        LDIR
        LD HL,NEWS              ; the ticker's text
        LD (TICK),HL
        LD A,PLAIN              ; the lines at the head and at the foot are black
        LD B,1
        LD C,0
        CALL TINTROWS
        LD B,1
        LD C,27
        CALL TINTROWS
        LD A,GREEN
        LD B,1
        LD C,17
        CALL TINTROWS
        LD A,SHORE
        LD B,1
        LD C,18
        CALL TINTROWS
        LD A,SEA
        LD B,8
        LD C,19
        CALL TINTROWS
        LD HL,TILES             ; water in the rows from 19 to 26
        LD DE,TILES+1
        LD BC,SIZE-1
        LD (HL),0
        LDIR
        LD A,DEEP
        LD B,8
        LD C,19
        CALL ROWS
        LD HL,SKY
        CALL PRINT
        LD HL,TITLES
        CALL PRINT
        LD HL,MOONAT
        LD A,MOON
        LD C,4
SCENE1: LD B,4
SCENE2: LD (HL),A
        INC HL
        INC A
        DJNZ SCENE2
        LD DE,ROW-4
        ADD HL,DE
        DEC C
        JR NZ,SCENE1
        RET
MOONAT  EQU CELLS+2*ROW+25

; B rows from row C on get the tile A, or as their colour the palette A, in all 36 columns. Keeps A.
TINTROWS: LD DE,TINT
        JR ROWS1
ROWS:   LD DE,0
ROWS1:  LD H,0
        LD L,C                  ; the columns at the sides
        PUSH HL
        PUSH DE
        ADD HL,DE
        LD DE,COLUMN34
        ADD HL,DE
        PUSH HL
        POP IX
        LD DE,COLUMN0-COLUMN34
        ADD HL,DE
        PUSH HL
        POP IY
        POP DE
        POP HL
        ADD HL,HL               ; and the row itself: C * 32
        ADD HL,HL
        ADD HL,HL
        ADD HL,HL
        ADD HL,HL
        ADD HL,DE
        LD DE,CELLS
        ADD HL,DE
ROWS2:  LD (IX),A
        LD (IX+20H),A
        LD (IY),A
        LD (IY+20H),A
        INC IX
        INC IY
        LD C,ROW
ROWS3:  LD (HL),A
        INC HL
        DEC C
        JR NZ,ROWS3
        DJNZ ROWS2
        RET

; Prints a list of places, palettes, lengths and codes, ended by a place of 0.
PRINT:  LD E,(HL)
        INC HL
        LD D,(HL)
        INC HL
        LD A,D
        OR A
        RET Z
        LD C,(HL)
        INC HL
        LD B,(HL)
        INC HL
PRINT1: LD A,(HL)
        INC HL
        LD (DE),A
        SET 2,D                 ; from the tile RAM to the colour RAM
        LD A,C
        LD (DE),A
        RES 2,D
        INC DE
        DJNZ PRINT1
        JR PRINT

; ---- Texts and pictures: a cell is CELLS + row * ROW + column - 2.

SKY:    DEFW CELLS+3
        DEFB PLAIN,6
        DEFM 'CAUGHT'
        DEFW CELLS+23
        DEFB PLAIN,4
        DEFM 'LOST'
        DEFW CELLS+3*ROW+3      ; single stars
        DEFB GOLD,1,LARGE
        DEFW CELLS+4*ROW+13
        DEFB GOLD,1,SMALL
        DEFW CELLS+6*ROW+1
        DEFB GOLD,1,SMALL
        DEFW CELLS+8*ROW+20
        DEFB GOLD,1,SMALL
        DEFW CELLS+10*ROW+6
        DEFB GOLD,1,LARGE
        DEFW CELLS+11*ROW+28
        DEFB GOLD,1,LARGE
        DEFW CELLS+12*ROW+15
        DEFB GOLD,1,SMALL
        DEFW CELLS+14*ROW+23
        DEFB GOLD,1,SMALL
        DEFW CELLS+14*ROW+3
        DEFB GOLD,1,SMALL
        DEFW 0

; Large letters, in quarters of a cell: bit 0 of a code is the quarter at the top left, bit 1 at the top right, bit 2
; at the bottom left and bit 3 at the bottom right, and 10H is added.
TITLES: DEFW CELLS+7*ROW+4
        DEFB GOLD,24
        DEFB 16H,13H,11H,13H,17H,11H,16H,13H,14H,17H,13H,14H
        DEFB 17H,13H,11H,16H,13H,14H,15H,00H,00H,15H,00H,00H
        DEFW CELLS+8*ROW+4
        DEFB GOLD,24
        DEFB 19H,1CH,00H,00H,15H,00H,1DH,1CH,15H,1DH,1CH,11H
        DEFB 1DH,1CH,00H,1DH,1CH,15H,15H,00H,00H,15H,00H,00H
        DEFW CELLS+9*ROW+4
        DEFB GOLD,24
        DEFB 00H,00H,15H,00H,15H,00H,15H,00H,15H,15H,19H,00H
        DEFB 15H,00H,00H,15H,00H,15H,15H,00H,00H,15H,00H,00H
        DEFW CELLS+10*ROW+4
        DEFB GOLD,24
        DEFB 13H,13H,00H,00H,11H,00H,11H,00H,11H,11H,00H,11H
        DEFB 11H,00H,00H,11H,00H,11H,13H,13H,11H,13H,13H,11H
        DEFW 0

PUSH1:  DEFW CELLS+13*ROW+10
        DEFB CHALK,12
        DEFM 'PUSH START 1'
        DEFW 0
PUSH0:  DEFW CELLS+13*ROW+10
        DEFB CHALK,12
        DEFS 12
        DEFW 0

NEWS:   DEFM '                                '
        DEFM 'STEER THE BOAT WITH THE JOYSTICK AND CATCH THE STARS!  '
        DEFM 'HILLS, WAVES AND THIS LINE ARE TILES; BOAT, STARS, GULL AND BUOY ARE SPRITES.'
        DEFB 0

; The sprites at the start: the boat, four stars, the gull, the buoy. At x byte 0 a sprite isn't shown.
SPRITES0: DEFB SAIL,BOAT, HULL,BOAT
        DEFB STAR,SHINING, STAR,SHINING, STAR,SHINING, STAR,SHINING
        DEFB WINGSUP,FEATHER, BUOY,PAINTED
        DEFB 152+31,272-80, 168+31,272-80
        DEFB 0,0, 0,0, 0,0, 0,0
        DEFB 104+31,255, 165+31,60

; ---- The tune. A frequency is 2^20 / 96,000 times its Hertz; its lowest nibble is left out, and Hertz stand here in
; tenths, so that a note is Hertz * 256 / 3,750.

A2      EQU 1100*256/3750
C3      EQU 1308*256/3750
D3      EQU 1468*256/3750
E3      EQU 1648*256/3750
F3      EQU 1746*256/3750
G3      EQU 1960*256/3750
A3      EQU 2200*256/3750
B3      EQU 2469*256/3750
C4      EQU 2616*256/3750
D4      EQU 2937*256/3750
E4      EQU 3296*256/3750
F4      EQU 3492*256/3750
G4      EQU 3920*256/3750
GS4     EQU 4153*256/3750
A4      EQU 4400*256/3750
B4      EQU 4939*256/3750
C5      EQU 5233*256/3750
D5      EQU 5873*256/3750
E5      EQU 6593*256/3750
F5      EQU 6985*256/3750
G5      EQU 7840*256/3750
A5      EQU 8800*256/3750

TEMPO   EQU 8                   ; frames a step; six steps a bar

TUNE:   DEFW A4,0,B4,C5,0,E5, D5,0,C5,B4,0,A4
        DEFW D5,0,E5,F5,0,D5, E5,0,0,C5,0,0
        DEFW A5,0,G5,F5,0,E5, G5,0,E5,C5,0,D5
        DEFW E5,0,D5,B4,0,GS4, A4,0,0,0,0,0
LENGTH  EQU ($-TUNE)/2         ; steps
BASS:   DEFW A2,0,0,E3,0,0, A2,0,0,E3,0,0
        DEFW D3,0,0,A2,0,0, A2,0,0,E3,0,0
        DEFW F3,0,0,C3,0,0, C3,0,0,G3,0,0
        DEFW E3,0,0,E3,0,0, A2,0,0,A3,0,0
HARP:   DEFW A3,C4,E4,A4,E4,C4, A3,C4,E4,A4,E4,C4
        DEFW A3,D4,F4,A4,F4,D4, A3,C4,E4,A4,E4,C4
        DEFW C4,F4,A4,C5,A4,F4, C4,E4,G4,C5,G4,E4
        DEFW B3,E4,GS4,B4,GS4,E4, A3,C4,E4,A4,0,0
