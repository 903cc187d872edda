; welcome.asm: a greeting in colour, that stays.
;
; The screen has 36 columns and 28 rows of cells. A cell shows the tile whose code stands in its byte of the tile RAM,
; with the palette whose number stands in its byte of the colour RAM, 400H further on. Columns 2 to 33 go through the
; RAM row by row, 32 bytes a row; the two columns on either side run downwards, byte by byte. Eight sprites of 16 by 16
; pixels stand before the cells. (make_set.py beside this file has the pictures and the palettes.)

; ---- The board

TILES   EQU 4000H               ; the tile RAM
COLOURS EQU 4400H               ; the colour RAM, of the same size
SPRITES EQU 4FF0H               ; eight times: code * 4 + flips, palette
PLACES  EQU 5060H               ; eight times: y + 31, 272 - x, of the upper left corner
WATCHDOG EQU 50C0H              ; a write here each 16 frames at least, or the board resets
SIZE    EQU 400H                ; of the tile RAM

CELLS   EQU TILES+40H           ; the cell in column 2, row 0
ROW     EQU 32                  ; from a row to the next
TINT    EQU COLOURS-TILES       ; from a cell's tile to its palette
COLUMN0 EQU TILES+3C2H          ; the cells in row 0 of the columns at the sides
COLUMN1 EQU TILES+3E2H
COLUMN34 EQU TILES+2
COLUMN35 EQU TILES+22H
BOTTOM  EQU 27                  ; the last row
STACK   EQU SPRITES             ; the work RAM ends where the sprites' bytes begin

; ---- The set: tiles, sprites and palettes

CHEQUER EQU 01H
SMALL   EQU 02H                 ; a small star
LARGE   EQU 03H                 ; and a large one
DEEP    EQU 05H                 ; the open sea
MOON    EQU 60H                 ; the first of 16
CREST   EQU 70H                 ; two of them make a wave
SHIP    EQU 0C0H                ; the first of 26

WINGSUP EQU 3*4                 ; gulls
WINGSDOWN EQU 4*4
STAR    EQU 5*4
FLIPX   EQU 1                   ; added to these: left and right exchanged

CHALK   EQU 1                   ; palettes of tiles
GOLD    EQU 2
SHORE   EQU 3                   ; the sea where it meets the sky
SEA     EQU 5
TIMBER  EQU 6
SHINING EQU 9                   ; and of sprites
FEATHER EQU 10

NIGHT   EQU 1                   ; 0 for a sky without stars

; ---- The program

        LD SP,STACK
        LD HL,COLOURS           ; the sky: all cells are tile 0 at first
        LD DE,COLOURS+1
        LD BC,SIZE-1
        LD (HL),CHALK
        LDIR

        LD A,CHEQUER            ; the border: its four sides,
        LD HL,CELLS
        LD B,ROW
        CALL FILL
        LD HL,CELLS+BOTTOM*ROW
        LD B,ROW
        CALL FILL
        LD HL,COLUMN0
        LD B,BOTTOM+1
        CALL FILL
        LD HL,COLUMN35
        LD B,BOTTOM+1
        CALL FILL
        LD (COLUMN1),A          ; and what is left of its corners
        LD (COLUMN1+BOTTOM),A
        LD (COLUMN34),A
        LD (COLUMN34+BOTTOM),A

        LD HL,CELLS+20*ROW      ; the sea: a row of waves,
        LD B,ROW/2
WAVE:   LD (HL),CREST
        INC HL
        LD (HL),CREST+1
        INC HL
        DJNZ WAVE
        LD A,DEEP               ; and water below it
        LD B,2*ROW
        CALL FILL
        LD A,SHORE
        LD HL,CELLS+TINT+20*ROW
        LD B,ROW
        CALL FILL
        LD A,SEA
        LD B,2*ROW
        CALL FILL

        LD HL,MOONS             ; what is above it, and on it
        LD A,MOON
        LD C,CHALK
        CALL DRAW
        LD HL,SHIPS
        LD A,SHIP
        LD C,TIMBER
        CALL DRAW
        LD C,SHORE              ; the hull's lowest cells are in the water
        CALL DRAW

        IF NIGHT
        LD A,SMALL
        LD HL,STARS
        CALL SHINE
        LD A,LARGE
        CALL SHINE
        ENDIF

        LD HL,TEXTS
        CALL PRINT

        LD HL,SHAPES            ; the sprites
        LD DE,SPRITES
        LD BC,16
        LDIR
        LD DE,PLACES
        LD BC,16
        LDIR

STAY:   LD (WATCHDOG),A         ; any byte will do
        JR STAY

; Fills B cells from HL on with the byte A. HL is then after them.
FILL:   LD (HL),A
        INC HL
        DJNZ FILL
        RET

; The next word of a list at HL goes to DE; Z at the list's end, a word of 0.
WORD:   LD E,(HL)
        INC HL
        LD D,(HL)
        INC HL
        INC D                   ; a look at D: no cell is below 100H
        DEC D
        RET

; Draws the tiles A, A + 1 and so on, of the palette C, from a list of places and lengths. HL is then after the list.
DRAW:   CALL WORD
        RET Z
        LD B,(HL)
        INC HL
CELL:   LD (DE),A
        EX AF,AF'               ; keeps A
        LD A,C
        CALL PAINT
        EX AF,AF'
        INC A
        INC DE
        DJNZ CELL
        JR DRAW

; The cell at DE gets the palette A.
PAINT:  SET 2,D                 ; from the tile RAM to the colour RAM: 400H further on
        LD (DE),A
        RES 2,D
        RET

; Puts the tile A, in gold, into a list of cells. HL is then after the list.
SHINE:  CALL WORD
        RET Z
        LD (DE),A
        EX AF,AF'
        LD A,GOLD
        CALL PAINT
        EX AF,AF'
        JR SHINE

; Copies from a list of places, palettes, lengths and codes.
PRINT:  CALL WORD
        RET Z
        LD C,(HL)
        INC HL
        LD B,(HL)
        INC HL
LETTER: LD A,(HL)
        INC HL
        LD (DE),A
        LD A,C
        CALL PAINT
        INC DE
        DJNZ LETTER
        JR PRINT

; ---- What is drawn, and where: a cell is CELLS + row * ROW + column - 2.

MOONS:  DEFW CELLS+12*ROW+24
        DEFB 4
        DEFW CELLS+13*ROW+24
        DEFB 4
        DEFW CELLS+14*ROW+24
        DEFB 4
        DEFW CELLS+15*ROW+24
        DEFB 4
        DEFW 0

SHIPS:  DEFW CELLS+15*ROW+9     ; the top of the mast
        DEFB 2
        DEFW CELLS+16*ROW+8
        DEFB 3
        DEFW CELLS+17*ROW+8
        DEFB 4
        DEFW CELLS+18*ROW+7
        DEFB 5
        DEFW CELLS+19*ROW+7
        DEFB 6
        DEFW 0
        DEFW CELLS+20*ROW+7     ; the hull, in the waves
        DEFB 6
        DEFW 0

        IF NIGHT
STARS:  DEFW CELLS+12*ROW+2, CELLS+15*ROW+6, CELLS+11*ROW+11, CELLS+14*ROW+15
        DEFW CELLS+12*ROW+21, CELLS+17*ROW+30, CELLS+18*ROW+18, 0
        DEFW CELLS+18*ROW+4, CELLS+11*ROW+17, CELLS+11*ROW+30, CELLS+16*ROW+21, 0
        ENDIF

; Code * 4 + flips and palette of each sprite, then the places, x and y from the picture's upper left corner. A sprite
; that isn't used stands at x = 272, where none shows.
SHAPES: DEFB WINGSUP,FEATHER, WINGSDOWN+FLIPX,FEATHER, WINGSUP,FEATHER, STAR,SHINING
        DEFB 0,0, 0,0, 0,0, 0,0
        DEFB 95+31,272-168, 112+31,272-192, 150+31,272-208, 66+31,272-26
        DEFB 31,0, 31,0, 31,0, 31,0

; The name is drawn in quarters of a cell: bit 0 of a code is the quarter at the top left, bit 1 at the top
; right, bit 2 at the bottom left and bit 3 at the bottom right, and 10H is added.
TEXTS:  DEFW CELLS+2*ROW+3
        DEFB GOLD,NAME2-NAME1
NAME1:  DEFB 14H,00H,14H,18H,1CH,00H,14H,00H,14H,1CH,1CH,00H,18H,1CH
        DEFB 00H,1CH,1CH,14H,1CH,1CH,14H,1CH,1CH,14H,14H,00H,14H
NAME2:  DEFW CELLS+3*ROW+3
        DEFB GOLD,NAME4-NAME3
NAME3:  DEFB 17H,16H,15H,15H,00H,15H,1FH,00H,15H,15H,00H,15H,15H,00H
        DEFB 15H,15H,00H,00H,00H,15H,00H,00H,15H,00H,19H,18H,11H
NAME4:  DEFW CELLS+4*ROW+3
        DEFB GOLD,NAME6-NAME5
NAME5:  DEFB 15H,11H,15H,15H,00H,15H,15H,19H,15H,15H,00H,15H,17H,13H
        DEFB 15H,17H,13H,00H,00H,15H,00H,00H,15H,00H,00H,15H,00H
NAME6:  DEFW CELLS+5*ROW+3
        DEFB GOLD,NAME8-NAME7
NAME7:  DEFB 15H,00H,15H,19H,1CH,11H,15H,12H,15H,1DH,1CH,11H,15H,00H
        DEFB 15H,15H,00H,00H,1CH,1DH,14H,00H,15H,00H,00H,15H,00H
NAME8:  DEFW CELLS+8*ROW+4
        DEFB CHALK,WHAT2-WHAT1
WHAT1:  DEFM 'A Z80 PROGRAM DREW THIS'
WHAT2:  DEFW CELLS+25*ROW
        DEFB CHALK,SIZE2-SIZE1
SIZE1:  DEFM ' 36 BY 28 CELLS, EIGHT SPRITES'
SIZE2:  DEFW 0
