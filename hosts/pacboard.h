/* The proved board as a C library: Namco's Pac-Man main board, all of whose state is one block of bytes that the host owns.
 * Made by tools/make/make-header from the declarations of crates/pac_host and from the definitions that their contracts cite.
 *
 * The library keeps nothing between calls, takes no memory but the stack (208 KB at most by pac_exec, 32 KB by each
 * other call), and calls nothing of the host. So a copy of a `pac_board` is a snapshot, which may be kept, compared and run again, and boards
 * in different threads don't touch. docs/HOSTS.md goes through a host of one's own.
 *
 * Each call but pac_size and pac_live_size answers a code. 0 is 'done'. At any other code nothing is changed: neither the board nor what the
 * host handed in to be written.
 *
 * What is trusted, for no library can test it: that pointers aren't null (also of a buffer without a byte) and are those of this header's
 * types, that a length is that of its buffer, and that no two buffers of a call share a byte. The calls whose names end with `_checked` test
 * for null, and answer PAC_NULL. All else is tested by the library: any bytes may stand in a board, a ROM block and a state file.
 *
 * Time is counted in T-states, periods of the processor's clock, of which a second has 3,072,000. A frame has 50,688 of them, which are
 * 16,500 microseconds and 1,584 samples, and ends with the vertical blank. A second has 60.6 frames.
 */
#ifndef PACBOARD_H
#define PACBOARD_H

#include <stddef.h>
#include <stdint.h>

#ifdef __cplusplus
extern "C" {
#endif

/* What a call answers. PAC_V1 to PAC_V6 are the refusals of a state file, in docs/FORMATS.md. */
enum {
    PAC_DONE = 0,
    PAC_LENGTH = 1, /* a length is another than the one that the call wants */
    PAC_STATE = 2,  /* the block isn't the state of a board */
    PAC_TIME = 3,   /* the microseconds that were asked of the board in all would pass 2^50 */
    PAC_ROOM = 4,   /* the buffer has less room than the samples that the call could give */
    PAC_CLOSED = 5, /* the handle isn't open */
    PAC_V1 = 11,
    PAC_V2 = 12,
    PAC_V3 = 13,
    PAC_V4 = 14,
    PAC_V5 = 15,
    PAC_V6 = 16,
    PAC_NULL = 100, /* a pointer is null: by the calls with `_checked` alone */
};

/* Sizes in bytes, unless another unit is told. */
enum {
    PAC_BOARD_SIZE = 67756,
    PAC_ROMS_SIZE = 25120,    /* program 16,384, tiles 4,096, sprites 4,096, colours 32, lookup 256, wave 256, in this order: hosts/roms.py */
    PAC_STATE_SIZE = 67756,   /* a state file */
    PAC_WIDTH = 288,          /* pixels */
    PAC_HEIGHT = 224,         /* pixels */
    PAC_RGBA_SIZE = 258048,   /* a picture: 4 bytes a pixel */
    PAC_LINES_SIZE = 64512,   /* a picture: a colour number a pixel */
    PAC_PALETTE_SIZE = 64,    /* the colours of the numbers: 4 bytes each */
    PAC_FRAME_MICROSECONDS = 16500,
    PAC_FRAME_SAMPLES = 1584, /* samples */
    PAC_SAMPLE_RATE = 96000,  /* samples a second */
    PAC_SWITCHES = 0xC9,      /* the byte of the DIP switches that `pacboard run` takes where none is given */
};

/* The order of a pixel's bytes, where it is asked for. */
enum {
    PAC_RGBA = 0, /* red, green, blue and 255 */
    PAC_BGRA = 1, /* blue, green, red and 255; as any other number */
};

/* The inputs, each a bit of a mask: what the names of a script stand for. */
enum {
    PAC_P1_UP = 1,
    PAC_P1_LEFT = 2,
    PAC_P1_RIGHT = 4,
    PAC_P1_DOWN = 8,
    PAC_RACK_TEST = 16,
    PAC_COIN1 = 32,
    PAC_COIN2 = 64,
    PAC_CREDIT = 128,
    PAC_P2_UP = 256,
    PAC_P2_LEFT = 512,
    PAC_P2_RIGHT = 1024,
    PAC_P2_DOWN = 2048,
    PAC_BOARD_TEST = 4096,
    PAC_START1 = 8192,
    PAC_START2 = 16384,
    PAC_COCKTAIL = 32768,
};

/* A board, in a host's memory: the text of its state file with zeros in the place of both digests. A plain value, that may be copied, kept
 * and handed in again. Any bytes may be handed in; those that are no board's state are refused. */
typedef struct pac_board {
    uint8_t bytes[PAC_BOARD_SIZE];
} pac_board;

/* Where a board's bytes have what: numbers of several bytes have the low one first. 0 to 29 and the last 20 are no state. */
enum {
    PAC_AT_A = 30,
    PAC_AT_F = 31,
    PAC_AT_B = 32,
    PAC_AT_C = 33,
    PAC_AT_D = 34,
    PAC_AT_E = 35,
    PAC_AT_H = 36,
    PAC_AT_L = 37,
    PAC_AT_ALTERNATE_A = 38,
    PAC_AT_ALTERNATE_F = 39,
    PAC_AT_ALTERNATE_B = 40,
    PAC_AT_ALTERNATE_C = 41,
    PAC_AT_ALTERNATE_D = 42,
    PAC_AT_ALTERNATE_E = 43,
    PAC_AT_ALTERNATE_H = 44,
    PAC_AT_ALTERNATE_L = 45,
    PAC_AT_IX = 46,
    PAC_AT_IY = 48,
    PAC_AT_SP = 50,
    PAC_AT_PC = 52,
    PAC_AT_I = 54,
    PAC_AT_R = 55,
    PAC_AT_FLAGS = 56,            /* a byte of these four bits */
    PAC_IFF1 = 1,
    PAC_IFF2 = 2,
    PAC_HALTED = 4,
    PAC_AFTER_EI = 8,
    PAC_AT_INTERRUPT_MODE = 57,   /* 0 to 2 */
    PAC_AT_TIME = 58,             /* 8 bytes: T-states since power-on */
    PAC_AT_STEPS = 66,            /* 8 bytes */
    PAC_AT_ASKED = 74,            /* 8 bytes: the microseconds that were asked so far */
    PAC_AT_TILE_RAM = 82,         /* from 4000H on */
    PAC_TILE_RAM_SIZE = 1024,
    PAC_AT_COLOUR_RAM = 1106,     /* from 4400H on */
    PAC_COLOUR_RAM_SIZE = 1024,
    PAC_AT_WORK_RAM = 2130,       /* from 4C00H on; the last 16 bytes are the sprites' shapes */
    PAC_WORK_RAM_SIZE = 1024,
    PAC_AT_COORDINATES = 3154,    /* the sprites' places, from 5060H on */
    PAC_COORDINATES_SIZE = 16,
    PAC_AT_WAVE_REGISTERS = 3170, /* from 5040H on */
    PAC_WAVE_REGISTERS_SIZE = 32,
    PAC_AT_ACCUMULATORS = 3202,   /* three of 4 bytes */
    PAC_AT_LATCH = 3214,          /* bits 0 to 7: what 5000H to 5007H keep */
    PAC_AT_VECTOR = 3215,         /* the interrupt vector */
    PAC_AT_REQUEST = 3216,        /* 1 where an interrupt is requested, or 0 */
    PAC_AT_WATCHDOG = 3217,       /* blanks since its last kick */
    PAC_AT_HELD = 3218,           /* 2 bytes: the inputs that are held, PAC_P1_UP and so on */
    PAC_AT_SWITCHES = 3220,       /* the byte of the DIP switches */
    PAC_AT_DUE = 3221,            /* bit 0: a sample is due, bit 1: the picture; after pac_exec it's 0 */
    PAC_AT_SAMPLE = 3222,         /* 2 bytes: the sample that is due */
    PAC_AT_PICTURE = 3224,        /* a colour number for each pixel, row by row from the top */
    PAC_PICTURE_SIZE = 64512,
};

/* Why the board can't go on. */
enum {
    PAC_GOES = 0,
    PAC_STOP_OPCODE = 1, /* the bytes at `pc` are no documented instruction */
    PAC_STOP_VECTOR = 2, /* interrupt mode 0 with a `vector` that is no RST; the processor would return to `pc` */
};

/* What a call of pac_exec did. What isn't to be told is 0. */
typedef struct pac_ran {
    uint64_t ticks;    /* T-states that went by */
    uint32_t samples;  /* samples that were given, at the head of the buffer */
    uint32_t pictures; /* vertical blanks that came: pictures that were finished */
    uint32_t stop;     /* why the board stopped; 0 where it didn't, and then all below is 0 */
    uint16_t pc;       /* where it stopped */
    uint8_t bytes[4];  /* the bytes from there on */
    uint8_t vector;    /* the interrupt vector where that is the reason, and else 0 */
    uint8_t zero;      /* 0 */
} pac_ran;

/* A live board in memory that a host lends: `size` bytes from `at` on, which begin at a place that 16 divides. All zeros, or a seal of
 * another number than an open handle's, is a closed handle. A copy of an open handle is no second board, and isn't handed in. */
typedef struct pac_live {
    void *at;      /* where the memory begins */
    size_t size;   /* its bytes */
    uint64_t seal; /* whether a board lies there: by one number alone */
} pac_live;

/* Why pac_live_until ended. */
enum {
    PAC_UNTIL_TIME = 1,   /* the time is over */
    PAC_UNTIL_PLACE = 2,  /* the board is before an address of the set */
    PAC_UNTIL_STOP = 3,   /* the board can't go on */
    PAC_UNTIL_FULL = 4,   /* the buffer has no room for the next sample */
    PAC_UNTIL_ACCESS = 5, /* a watched address was written to or read */
};

/* What a call of `pac_live_until` did. */
typedef struct pac_until {
    uint64_t ticks;    /* T-states that went by */
    uint32_t samples;  /* samples that were given, at the head of the buffer */
    uint32_t pictures; /* vertical blanks that came: pictures that were finished */
    uint32_t why;      /* why it ended */
    uint32_t stop;     /* why the board stopped; 0 where it didn't, and then `bytes` and `vector` are 0 */
    uint16_t pc;       /* where the board is */
    uint16_t address;  /* the watched address that the last step wrote to or read */
    uint8_t access;    /* what it did there: 1 where it wrote, 2 where it read, 0 where it did neither; then `address`, `before` and `after` are 0 */
    uint8_t before;    /* what a read there gave right before a write; of a read what it gives now */
    uint8_t after;     /* the byte that was written; of a read what it gives now */
    uint8_t vector;    /* the interrupt vector where that is the reason of a stop, and else 0 */
    uint8_t bytes[4];  /* the bytes from `pc` on at a stop */
    uint32_t zero;     /* 0 */
} pac_until;

/* The registers of a board by their names (UM0080, "Z80 CPU Register Description"). */
typedef struct pac_registers {
    uint64_t time;          /* T-states since power-on */
    uint64_t steps;         /* steps since power-on */
    uint16_t pc;            /* the program counter */
    uint16_t sp;            /* the stack pointer */
    uint16_t ix;            /* the first index register */
    uint16_t iy;            /* the second index register */
    uint8_t a;              /* A */
    uint8_t f;              /* F */
    uint8_t b;              /* B */
    uint8_t c;              /* C */
    uint8_t d;              /* D */
    uint8_t e;              /* E */
    uint8_t h;              /* H */
    uint8_t l;              /* L */
    uint8_t alternate_a;    /* A' */
    uint8_t alternate_f;    /* F' */
    uint8_t alternate_b;    /* B' */
    uint8_t alternate_c;    /* C' */
    uint8_t alternate_d;    /* D' */
    uint8_t alternate_e;    /* E' */
    uint8_t alternate_h;    /* H' */
    uint8_t alternate_l;    /* L' */
    uint8_t i;              /* the high byte of the table of interrupt mode 2 */
    uint8_t r;              /* the refresh counter */
    uint8_t interrupt_mode; /* 0 to 2 */
    uint8_t iff1;           /* whether interrupts are accepted */
    uint8_t iff2;           /* what a non-maskable interrupt would have kept of `iff1` */
    uint8_t halted;         /* whether HALT has stopped the processor until an interrupt */
    uint8_t after_ei;       /* whether the last step was EI, after which no interrupt is accepted */
    uint8_t zero;           /* 0 */
} pac_registers;

/* The bytes of a board's block: a host that knows another size was made for another library. */
size_t pac_size(void);

/* Makes a board at power-on, whose DIP switches give the byte `switches`. Whatever is in `board` before is not looked at.
 * PAC_LENGTH: `length` isn't PAC_ROMS_SIZE. */
uint32_t pac_init(pac_board *board, const uint8_t *roms, size_t length, uint8_t switches);

/* What the watchdog does: the processor begins at 0000H again, latch, request and the watchdog's count are cleared; all else stays.
 * PAC_STATE. */
uint32_t pac_reset(pac_board *board);

/* Lets the inputs of `clear` go, and then holds those of `set`; `pac_hold(board, mask, 0xFFFF)` holds these and no other. The program sees
 * it from the next call of pac_exec on. PAC_STATE. */
uint32_t pac_hold(pac_board *board, uint16_t set, uint16_t clear);

/* Lets so many microseconds go by: the board runs until its time is the one that was asked in all, and at most 22 T-states longer, since an
 * instruction isn't cut. The samples, 96,000 a second, go to the head of `samples`, whose rest stays, and what was done to `ran`. Where the
 * board stops, the answer is PAC_DONE and `ran->stop` tells why; a further call stops at once, and gives nothing. After a reset or with
 * other ROMs the board goes on from the stop's time: what was asked past that is forgotten.
 * PAC_LENGTH: `length` isn't PAC_ROMS_SIZE. PAC_STATE. PAC_TIME. PAC_ROOM: of a board that was made by `pac_init`, whatever calls but
 * `pac_load` came since, room for `microseconds * 12 / 125 + 2` samples is always enough; those are 1,586 for a frame. A state file's board
 * that is behind the time asked of it wants room for that time, too. */
uint32_t pac_exec(pac_board *board, const uint8_t *roms, size_t length, uint32_t microseconds, int16_t *samples, size_t capacity,
                  pac_ran *ran);

/* Draws the picture as it stands: after a call of pac_exec that ended with a blank, as one for 16,500 microseconds does from power-on, the
 * whole picture of that frame. 224 rows from the top, each of 288 pixels from the left, each the bytes red, green, blue and 255.
 * PAC_LENGTH: `length` isn't PAC_ROMS_SIZE, or `rgba_length` isn't PAC_RGBA_SIZE. PAC_STATE. */
uint32_t pac_draw(const pac_board *board, const uint8_t *roms, size_t length, uint8_t *rgba, size_t rgba_length);

/* Writes the board's state file, the one that `pacboard run --load` and `pac_load` take, with the digest of the ROM set in it.
 * PAC_LENGTH: `length` isn't PAC_ROMS_SIZE, or `text_length` isn't PAC_STATE_SIZE. PAC_STATE. */
uint32_t pac_save(const pac_board *board, const uint8_t *roms, size_t length, uint8_t *text, size_t text_length);

/* Makes the board of a state file, of any length. Whatever is in `board` before is not looked at.
 * PAC_LENGTH: `length` isn't PAC_ROMS_SIZE. PAC_V1 to PAC_V6: the file is refused, docs/FORMATS.md says why; a wrong length is PAC_V3. */
uint32_t pac_load(pac_board *board, const uint8_t *roms, size_t length, const uint8_t *text, size_t text_length);

/* Writes what the processor would read at as many addresses as `bytes` has room for, the first of which is `address`; after FFFFH comes
 * 0000H. What it would read of a port has the inputs and the switches as they are.
 * PAC_LENGTH: `length` isn't PAC_ROMS_SIZE. PAC_STATE. */
uint32_t pac_peek(const pac_board *board, const uint8_t *roms, size_t length, uint16_t address, uint8_t *bytes, size_t bytes_length);

/* The bytes of memory that a live board takes. */
size_t pac_live_size(void);

/* Opens a handle: its memory becomes the board at power-on, with these ROMs and the byte of the DIP switches. A board that lay there before
 * is gone.
 * PAC_LENGTH: `length` isn't PAC_ROMS_SIZE, or `live->size` is less than `pac_live_size()`. */
uint32_t pac_live_open(pac_live *live, const uint8_t *roms, size_t length, uint8_t switches);

/* Closes a handle: its memory is the host's, which may open it again. PAC_CLOSED. */
uint32_t pac_live_close(pac_live *live);

/* Becomes the board of a block and ROMs. PAC_CLOSED.
 * PAC_LENGTH: `length` isn't PAC_ROMS_SIZE. PAC_STATE. */
uint32_t pac_live_put(pac_live *live, const uint8_t *roms, size_t length, const pac_board *board);

/* Writes the board's block, whatever `board` was before: a snapshot, which any call of a block and `pac_live_put` take. PAC_CLOSED. */
uint32_t pac_live_give(pac_live *live, pac_board *board);

/* What the watchdog does: as `pac_reset`. PAC_CLOSED. */
uint32_t pac_live_reset(pac_live *live);

/* Lets the inputs of `clear` go, and then holds those of `set`: as `pac_hold`. PAC_CLOSED. */
uint32_t pac_live_hold(pac_live *live, uint16_t set, uint16_t clear);

/* Lets so many microseconds go by: as pac_exec. PAC_CLOSED. PAC_TIME. PAC_ROOM, as there. */
uint32_t pac_live_exec(pac_live *live, uint32_t microseconds, int16_t *samples, size_t capacity, pac_ran *ran);

/* Does exactly one step: an instruction, one round of a repeating one, a halted step or an interrupt's acceptance. Its samples go to the
 * head of `samples`, and what was done to `ran`. Where the board stops, no step is done, and `ran->stop` tells why. What was asked in all
 * stays, so `pac_live_exec` goes on from there to the time that it would have gone to. PAC_CLOSED. PAC_TIME.
 * PAC_ROOM: room for 2 samples is always enough. */
uint32_t pac_live_step(pac_live *live, int16_t *samples, size_t capacity, pac_ran *ran);

/* Goes on until so many T-states are over from now, and at most 22 longer; or the board is before an address of the set; or a step wrote to
 * a watched address, or read there as data; or the board can't go on; or the buffer has no room for the next sample. `ran->why` tells which
 * of these. `places` has 65,536 bytes, one for each address, which isn't 0 where it is in the set; or none, and then no address is.
 * `watched` has 65,536 bytes, too: 1 where writes to the address are watched, also of the byte that is there, 2 where reads of it are, 3
 * where both are; or none. A step that does both is told as a write. Addresses are as the program writes them: the mirrors of a cell are
 * others. Where there is time, one step at least is done, so that the board goes on from an address that it is at. The samples go to the
 * head of `samples`. What had no room stays due, in the block, too, and the next call gives it first: that call then goes on as this one
 * would have, and ends at once where the board is at an address of the set. Without any room a board goes on up to the step that gives a
 * sample, and then no further. What was asked in all stays, so `pac_live_exec` goes on from there to the time that it would have gone to.
 * PAC_CLOSED. PAC_TIME: the time would pass 2^52 T-states. PAC_LENGTH: `places` or `watched` has neither 65,536 bytes nor none. */
uint32_t pac_live_until(pac_live *live, uint32_t ticks, const uint8_t *places, size_t places_length, const uint8_t *watched,
                        size_t watched_length, int16_t *samples, size_t capacity, pac_until *ran);

/* Writes what the processor would read at as many addresses as `bytes` has room for, the first of which is `address`: as `pac_peek`.
 * PAC_CLOSED. */
uint32_t pac_live_peek(pac_live *live, uint16_t address, uint8_t *bytes, size_t bytes_length);

/* Tells the registers. PAC_CLOSED. */
uint32_t pac_live_registers(pac_live *live, pac_registers *registers);

/* Draws the picture as it stands, each pixel by four bytes in this order: 0 is red, green, blue and 255, as `pac_draw` has them, and any
 * other number blue, green, red and 255. PAC_CLOSED.
 * PAC_LENGTH: `pixels_length` isn't PAC_RGBA_SIZE. */
uint32_t pac_live_draw(pac_live *live, uint8_t order, uint8_t *pixels, size_t pixels_length);

/* Gives the picture as it stands by its colour numbers, 0 to 15: 224 rows from the top, each of 288 from the left. And the colours of the
 * numbers in their order, each the bytes red, green, blue and 255. `pac_live_draw` draws each number in its colour. PAC_CLOSED.
 * PAC_LENGTH: `lines_length` isn't PAC_LINES_SIZE, or `palette_length` isn't PAC_PALETTE_SIZE. */
uint32_t pac_live_lines(pac_live *live, uint8_t *lines, size_t lines_length, uint8_t *palette, size_t palette_length);

/* Writes the board's state file, with the digest of its ROM set in it: as `pac_save`. PAC_CLOSED.
 * PAC_LENGTH: `text_length` isn't PAC_STATE_SIZE. */
uint32_t pac_live_save(pac_live *live, uint8_t *text, size_t text_length);

/* Takes the state of a state file of the board's ROMs, of any length: as `pac_load`. PAC_CLOSED.
 * PAC_V1 to PAC_V6: the file is refused, docs/FORMATS.md says why; a wrong length is PAC_V3. */
uint32_t pac_live_load(pac_live *live, const uint8_t *text, size_t text_length);

/* Whether this header's board is the library's: look once, at the start. */
static inline int pac_matches(void)
{
    return pac_size() == sizeof(pac_board);
}

/* The same calls, which answer PAC_NULL where a pointer is null, and else what the call answers. */

static inline uint32_t pac_init_checked(pac_board *board, const uint8_t *roms, size_t length, uint8_t switches)
{
    return board && roms ? pac_init(board, roms, length, switches) : (uint32_t)PAC_NULL;
}

static inline uint32_t pac_reset_checked(pac_board *board)
{
    return board ? pac_reset(board) : (uint32_t)PAC_NULL;
}

static inline uint32_t pac_hold_checked(pac_board *board, uint16_t set, uint16_t clear)
{
    return board ? pac_hold(board, set, clear) : (uint32_t)PAC_NULL;
}

static inline uint32_t pac_exec_checked(pac_board *board, const uint8_t *roms, size_t length, uint32_t microseconds, int16_t *samples,
                                        size_t capacity, pac_ran *ran)
{
    return board && roms && samples && ran ? pac_exec(board, roms, length, microseconds, samples, capacity, ran) : (uint32_t)PAC_NULL;
}

static inline uint32_t pac_draw_checked(const pac_board *board, const uint8_t *roms, size_t length, uint8_t *rgba, size_t rgba_length)
{
    return board && roms && rgba ? pac_draw(board, roms, length, rgba, rgba_length) : (uint32_t)PAC_NULL;
}

static inline uint32_t pac_save_checked(const pac_board *board, const uint8_t *roms, size_t length, uint8_t *text, size_t text_length)
{
    return board && roms && text ? pac_save(board, roms, length, text, text_length) : (uint32_t)PAC_NULL;
}

static inline uint32_t pac_load_checked(pac_board *board, const uint8_t *roms, size_t length, const uint8_t *text, size_t text_length)
{
    return board && roms && text ? pac_load(board, roms, length, text, text_length) : (uint32_t)PAC_NULL;
}

static inline uint32_t pac_peek_checked(const pac_board *board, const uint8_t *roms, size_t length, uint16_t address, uint8_t *bytes,
                                        size_t bytes_length)
{
    return board && roms && bytes ? pac_peek(board, roms, length, address, bytes, bytes_length) : (uint32_t)PAC_NULL;
}

static inline uint32_t pac_live_open_checked(pac_live *live, const uint8_t *roms, size_t length, uint8_t switches)
{
    return live && roms ? pac_live_open(live, roms, length, switches) : (uint32_t)PAC_NULL;
}

static inline uint32_t pac_live_close_checked(pac_live *live)
{
    return live ? pac_live_close(live) : (uint32_t)PAC_NULL;
}

static inline uint32_t pac_live_put_checked(pac_live *live, const uint8_t *roms, size_t length, const pac_board *board)
{
    return live && roms && board ? pac_live_put(live, roms, length, board) : (uint32_t)PAC_NULL;
}

static inline uint32_t pac_live_give_checked(pac_live *live, pac_board *board)
{
    return live && board ? pac_live_give(live, board) : (uint32_t)PAC_NULL;
}

static inline uint32_t pac_live_reset_checked(pac_live *live)
{
    return live ? pac_live_reset(live) : (uint32_t)PAC_NULL;
}

static inline uint32_t pac_live_hold_checked(pac_live *live, uint16_t set, uint16_t clear)
{
    return live ? pac_live_hold(live, set, clear) : (uint32_t)PAC_NULL;
}

static inline uint32_t pac_live_exec_checked(pac_live *live, uint32_t microseconds, int16_t *samples, size_t capacity, pac_ran *ran)
{
    return live && samples && ran ? pac_live_exec(live, microseconds, samples, capacity, ran) : (uint32_t)PAC_NULL;
}

static inline uint32_t pac_live_step_checked(pac_live *live, int16_t *samples, size_t capacity, pac_ran *ran)
{
    return live && samples && ran ? pac_live_step(live, samples, capacity, ran) : (uint32_t)PAC_NULL;
}

static inline uint32_t pac_live_until_checked(pac_live *live, uint32_t ticks, const uint8_t *places, size_t places_length,
                                              const uint8_t *watched, size_t watched_length, int16_t *samples, size_t capacity,
                                              pac_until *ran)
{
    return live && places && watched && samples && ran ? pac_live_until(live, ticks, places, places_length, watched, watched_length, samples, capacity, ran)
                                                       : (uint32_t)PAC_NULL;
}

static inline uint32_t pac_live_peek_checked(pac_live *live, uint16_t address, uint8_t *bytes, size_t bytes_length)
{
    return live && bytes ? pac_live_peek(live, address, bytes, bytes_length) : (uint32_t)PAC_NULL;
}

static inline uint32_t pac_live_registers_checked(pac_live *live, pac_registers *registers)
{
    return live && registers ? pac_live_registers(live, registers) : (uint32_t)PAC_NULL;
}

static inline uint32_t pac_live_draw_checked(pac_live *live, uint8_t order, uint8_t *pixels, size_t pixels_length)
{
    return live && pixels ? pac_live_draw(live, order, pixels, pixels_length) : (uint32_t)PAC_NULL;
}

static inline uint32_t pac_live_lines_checked(pac_live *live, uint8_t *lines, size_t lines_length, uint8_t *palette, size_t palette_length)
{
    return live && lines && palette ? pac_live_lines(live, lines, lines_length, palette, palette_length) : (uint32_t)PAC_NULL;
}

static inline uint32_t pac_live_save_checked(pac_live *live, uint8_t *text, size_t text_length)
{
    return live && text ? pac_live_save(live, text, text_length) : (uint32_t)PAC_NULL;
}

static inline uint32_t pac_live_load_checked(pac_live *live, const uint8_t *text, size_t text_length)
{
    return live && text ? pac_live_load(live, text, text_length) : (uint32_t)PAC_NULL;
}

#ifdef __cplusplus
}
static_assert(sizeof(pac_board) == PAC_BOARD_SIZE && sizeof(pac_ran) == 32 && sizeof(pac_registers) == 48 &&
               sizeof(pac_until) == 40, "the library's layout");
#else
_Static_assert(sizeof(pac_board) == PAC_BOARD_SIZE && sizeof(pac_ran) == 32 && sizeof(pac_registers) == 48 &&
               sizeof(pac_until) == 40, "the library's layout");
#endif

#endif
