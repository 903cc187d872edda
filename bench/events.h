/* An event-driven board: what the board of bench/events.c and the processor of bench/z80.c share. docs/USING.md has the board on one page. */
#ifndef EVENTS_H
#define EVENTS_H

#include <stdbool.h>
#include <stdint.h>

enum {
    FRAME = 50688,     /* T-states */
    LINE = 192,        /* T-states */
    BEFORE = 41,       /* scan lines whose end comes before that of the picture's second line */
    WIDTH = 288,       /* pixels */
    HEIGHT = 224,      /* pixels */
    CELLS = 36,        /* of a row */
    ROWS = 28,         /* of cells */
    SPRITES = 8,
    SIDE = 16,         /* pixels of a sprite */
    VOICES = 3,
    ROOM = FRAME / 32 + 2, /* samples of a frame, and more */
    ENABLE = 1, SOUND = 2, FLIP = 8, /* of the latch */
};

/* The Z80 between two steps. */
struct processor {
    uint16_t bc, de, hl, ix, iy, sp, pc, bc2, de2, hl2;
    uint8_t a, f, a2, f2, i, r, mode;
    bool iff1, iff2, halted, after_ei, stopped;
};

struct board {
    /* All that the processor can read, with its mirrors; the word at FFFFH ends with a byte of 0000H. */
    uint8_t memory[65536 + 1];
    struct processor processor;
    uint64_t time, steps, asked; /* asked is in microseconds */
    uint8_t coordinates[2 * SPRITES], registers[32], latch, vector, request, blanks, switches;
    uint16_t held;
    /* Sound: samples are made up to the moment `heard` * 32. */
    uint64_t heard;
    uint32_t accumulators[VOICES];
    int made;
    int16_t samples[ROOM], waves[8][16][32]; /* each waveform at each volume */
    /* Picture: lines are shown up to `line`, the next one at the time `line_time`. All rows, but those of `picture`, are unflipped. */
    uint64_t began, line_time;
    int line;
    uint64_t stale[HEIGHT];  /* a bit for each cell that isn't as in `cells` any more */
    uint8_t dirty[HEIGHT];   /* whether the line's sprites or flip changed */
    uint8_t covers[HEIGHT];  /* a bit for each sprite that has a row there */
    uint8_t cells[HEIGHT][WIDTH], picture[HEIGHT][WIDTH];
    uint64_t tiles[32][256][8];             /* rows of eight pixels, by palette and code */
    uint8_t sprites[32][64][SIDE][SIDE];
    uint8_t colours[16][3];
    uint16_t places[ROWS][CELLS];           /* of cells in tile RAM */
    uint8_t row_of[1024], column_of[1024];  /* of places; CELLS where none is shown */
};

/* Runs until this time at least, or to a stop. Nothing but the program happens meanwhile. */
void run(struct board *board, uint64_t end);

/* A byte was written in the step that began at `time`: to the place of an address without its mirrors, 4000H to 5FFFH. */
void written(struct board *board, unsigned place, uint8_t byte, uint64_t time);

/* Puts a byte into RAM and its mirrors. */
static inline void keep(struct board *board, unsigned place, uint8_t byte)
{
    uint8_t *at = board->memory + place;

    at[0] = at[0x2000] = at[0x8000] = at[0xA000] = byte;
}

/* Writes a byte: work RAM, which nothing shows, at once. */
static inline void put(struct board *board, unsigned address, uint8_t byte, uint64_t time)
{
    unsigned place = address & 0x5FFF;

    if (place - 0x4C00 < 0x3F0)
        keep(board, place, byte);
    else if (place >= 0x4000)
        written(board, place, byte, time);
}

#endif
