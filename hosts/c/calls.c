/* Tries each call of the library as a host makes it: what it answers, what it changes, and that nothing is changed where it isn't done.
 *
 *   calls
 *
 * The programs are a few bytes each. What they do is worked out by hand from UM0080 and docs/FORMATS.md, and digests were taken by another
 * tool. The last line is `N passed, M failed`; the exit status is 0 where M is 0.
 */
#include "../pacboard.h"

#include <stdio.h>
#include <stdlib.h>
#include <string.h>

enum {
    FRAME = PAC_FRAME_MICROSECONDS,
    ROOM = PAC_FRAME_SAMPLES,
    TILE = 16384 + 16 * 0x42, /* the places of tile 42H, the colour PROM and the lookup PROM in a ROM block */
    TILE_SIZE = 16,
    COLOURS = 24576,
    LOOKUP = 24608,
    VERSION = 8, /* the places of a block and of a state file, by docs/FORMATS.md */
    FIRST_DIGEST = 10,
    REGISTERS = 30,
    SP = 50,
    PC = 52,
    FLAGS = 56, /* of which the upper four bits are unused */
    MODE = 57,
    TIME = 58,
    STEPS = 66,
    ASKED = 74,
    TILE_RAM = 82,
    CELL = 82 + 0x40, /* 4040H, in tile RAM */
    COLOUR_RAM = 1106,
    READ = 2130, /* 4C00H, the first of work RAM */
    LAST_RAM = 3153,
    COORDINATES = 3154,
    WAVE = 3170, /* the wave generator's registers */
    ACCUMULATORS = 3202,
    LATCH = 3214,
    BLANKS = 3217,
    HELD = 3218,
    SWITCHES = 3220,
    DUE = 3221,
    PICTURE = 3224,
    WIDTH = 288,
    LAST_DIGEST = 67736,
    DIGEST_SIZE = 20,
    UNTOUCHED = 0x55,
};

/* What a host has. The ROM block may be handed in one byte too long, and the last two samples are beyond those of a frame. */
typedef struct host {
    pac_board board;
    uint8_t roms[PAC_ROMS_SIZE + 1];
    size_t length; /* of the ROM block */
    int16_t samples[ROOM + 2];
    pac_ran ran;
} host;

/* The first bytes of a program; the others are 0. */
typedef uint8_t program[64];

/* LD A,42H / LD (4040H),A / HALT */
static const program cell = {0x3E, 0x42, 0x32, 0x40, 0x40, 0x76};
/* LD A,(5000H) / LD (4C00H),A / JR to the first */
static const program ports = {0x3A, 0x00, 0x50, 0x32, 0x00, 0x4C, 0x18, 0xF8};
/* LD A,5 / OUT (0),A / LD A,1 / LD (5000H),A / IM 0 / EI / HALT: the vector is no RST */
static const program vector = {0x3E, 0x05, 0xD3, 0x00, 0x3E, 0x01, 0x32, 0x00, 0x50, 0xED, 0x46, 0xFB, 0x76};
/* LD A,1 / LD (5001H),A / LD A,0FH / LD (5055H),A / HALT: sound is on, and voice 1 has its full volume */
static const program sound = {0x3E, 0x01, 0x32, 0x01, 0x50, 0x3E, 0x0F, 0x32, 0x55, 0x50, 0x76};
/* NOP / ED 00, which is no documented instruction, and two bytes after it */
static const program undocumented = {0x00, 0xED, 0x00, 0x12, 0x34};
/* LD A,(nn) / LD (4C10H),A, and so on up to 4C16H, for 4000H, 4400H, 4C00H, 4FFFH, 5000H, 5040H and 5080H; and HALT */
static const program copies = {0x3A, 0x00, 0x40, 0x32, 0x10, 0x4C, 0x3A, 0x00, 0x44, 0x32, 0x11, 0x4C, 0x3A, 0x00, 0x4C,
                               0x32, 0x12, 0x4C, 0x3A, 0xFF, 0x4F, 0x32, 0x13, 0x4C, 0x3A, 0x00, 0x50, 0x32, 0x14, 0x4C,
                               0x3A, 0x40, 0x50, 0x32, 0x15, 0x4C, 0x3A, 0x80, 0x50, 0x32, 0x16, 0x4C, 0x76};
/* At 0030H: HALT. At 0026H: the word 0030H. Before it NOPs. */
static const program handler = {[0x26] = 0x30, [0x30] = 0x76};
/* LD (4C00H),SP / LD SP,4C40H / PUSH AF, BC, DE, HL, IX and IY / EX AF,AF' / EXX / PUSH AF, BC, DE and HL / LD A,I / LD (4C02H),A /
 * PUSH AF / LD A,R / LD (4C03H),A / HALT */
static const uint8_t stores[] = {0xED, 0x73, 0x00, 0x4C, 0x31, 0x40, 0x4C, 0xF5, 0xC5, 0xD5, 0xE5, 0xDD, 0xE5, 0xFD, 0xE5, 0x08, 0xD9,
                                 0xF5, 0xC5, 0xD5, 0xE5, 0xED, 0x57, 0x32, 0x02, 0x4C, 0xF5, 0xED, 0x5F, 0x32, 0x03, 0x4C, 0x76};

/* SHA-1 of the ROMs of the program `cell`. */
static const uint8_t roms_digest[DIGEST_SIZE] = {0x59, 0x3C, 0x6F, 0x79, 0xB9, 0x2D, 0xAC, 0x5E, 0x86, 0x51,
                                                 0x03, 0x2E, 0xB6, 0x30, 0x79, 0xD9, 0x2D, 0x6E, 0x9C, 0xCF};
/* SHA-1 of the state file of these ROMs in which all but the first bytes, the version and the digests is 0; where byte 56 is 16; and where
 * the first digest's first byte is 58H. */
static const uint8_t digest[DIGEST_SIZE] = {0xA1, 0xBF, 0x59, 0x80, 0x70, 0xF5, 0x44, 0xAA, 0x9F, 0xD2,
                                            0x86, 0x3F, 0x57, 0x08, 0xED, 0x7F, 0xB0, 0x76, 0xD8, 0x13};
static const uint8_t unused_bit_digest[DIGEST_SIZE] = {0x7D, 0x31, 0x50, 0xB9, 0xAB, 0x7E, 0x52, 0xE9, 0xA1, 0x1F,
                                                       0xA0, 0xF0, 0xE2, 0x49, 0xB1, 0x79, 0xAE, 0xDA, 0x3C, 0xB2};
static const uint8_t other_set_digest[DIGEST_SIZE] = {0xAB, 0xC1, 0x1A, 0x2C, 0x4B, 0x9F, 0x09, 0x09, 0x04, 0x43,
                                                      0x56, 0xE6, 0x18, 0x0E, 0x70, 0x03, 0x7C, 0x0C, 0x46, 0x5F};
/* SHA-1 of the ROMs of `cell` whose tile 42H shows colour number 2; and of the state file of `lay_passed`, in versions 2 and 1. */
static const uint8_t shown_roms_digest[DIGEST_SIZE] = {0xEC, 0x8C, 0x36, 0x1B, 0x08, 0x9A, 0xD4, 0x3B, 0x32, 0xC8,
                                                       0x86, 0xCA, 0x10, 0xBF, 0x20, 0x58, 0x07, 0x7D, 0x36, 0x5B};
static const uint8_t passed_digest[DIGEST_SIZE] = {0xB1, 0x08, 0xEE, 0x8E, 0x7C, 0xF2, 0x64, 0x62, 0xCB, 0x93,
                                                   0xA4, 0xEF, 0xE9, 0xC3, 0x98, 0xFD, 0x98, 0xE4, 0xBC, 0x14};
static const uint8_t old_digest[DIGEST_SIZE] = {0xA3, 0x8B, 0x59, 0x5E, 0xBF, 0x42, 0x1F, 0x31, 0x15, 0x8C,
                                                0xCC, 0x98, 0x7D, 0xC7, 0xA5, 0x5E, 0xF4, 0xC3, 0xEC, 0x0D};

static int passed, failed;
static host one, other;
static uint8_t rgba[PAC_RGBA_SIZE + 1], text[PAC_STATE_SIZE + 1];

/* Counts what was tried, and names what failed, with a number that tells it from its like. */
static void row_at(const char *what, long at, int is_so)
{
    passed += is_so != 0, failed += is_so == 0;
    if (!is_so)
        printf("FAILED: %s, %ld\n", what, at);
}

/* The same where there is but one of its kind. */
static void row(const char *what, int is_so)
{
    passed += is_so != 0, failed += is_so == 0;
    if (!is_so)
        printf("FAILED: %s\n", what);
}

/* Whether each of so many bytes is this one. */
static int is_all(const void *bytes, size_t size, uint8_t byte)
{
    const uint8_t *at = bytes;
    while (size > 0 && *at == byte)
        at++, size--;
    return size == 0;
}

/* Whether the blocks of two boards are one. */
static int is_same(const pac_board *board, const pac_board *wanted)
{
    return memcmp(board, wanted, sizeof *board) == 0;
}

/* Whether these two bytes stand at a place of a block. */
static int has(const pac_board *board, int at, uint8_t first, uint8_t second)
{
    return board->bytes[at] == first && board->bytes[at + 1] == second;
}

/* Writes a number of eight bytes into a block, the low byte first. */
static void put(pac_board *to, int at, uint64_t number)
{
    for (int byte = 0; byte < 8; byte++)
        to->bytes[at + byte] = (uint8_t)(number >> 8 * byte);
}

/* Makes a host of a block of zeros and of ROMs with this program, whose first colour is red; all else is 0. */
static void lay(host *to, const program code)
{
    memset(to, 0, sizeof *to);
    memcpy(to->roms, code, sizeof(program));
    to->roms[COLOURS] = 7;
    to->length = PAC_ROMS_SIZE;
}

/* Makes the host's block that of power-on. */
static uint32_t init(host *of)
{
    return pac_init(&of->board, of->roms, of->length, PAC_SWITCHES);
}

/* Makes a host at power-on. */
static void power_on(host *to, const program code)
{
    lay(to, code);
    row("power-on", init(to) == PAC_DONE);
}

/* Lets microseconds go by, with room for so many samples of a buffer that nothing was written to. */
static uint32_t run(host *of, uint32_t microseconds, size_t room)
{
    memset(of->samples, UNTOUCHED, sizeof of->samples);
    memset(&of->ran, UNTOUCHED, sizeof of->ran);
    return pac_exec(&of->board, of->roms, of->length, microseconds, of->samples, room, &of->ran);
}

/* Whether a run isn't done, for a reason, and block, buffer and what is told stay. */
static int keeps_run(host *of, uint32_t microseconds, size_t room, uint32_t code)
{
    pac_board before = of->board;
    int is_refused = run(of, microseconds, room) == code && is_same(&of->board, &before);
    return is_refused && is_all(of->samples, sizeof of->samples, UNTOUCHED) && is_all(&of->ran, sizeof of->ran, UNTOUCHED);
}

/* Whether a picture isn't drawn into a buffer of so many bytes, for a reason, and the buffer stays. */
static int keeps_picture(const host *of, size_t size, uint32_t code)
{
    memset(rgba, UNTOUCHED, sizeof rgba);
    return pac_draw(&of->board, of->roms, of->length, rgba, size) == code && is_all(rgba, sizeof rgba, UNTOUCHED);
}

/* Whether no byte of memory is written, for a reason, and the buffer stays. */
static int keeps_bytes(const host *of, uint32_t code)
{
    uint8_t bytes[4];
    memset(bytes, UNTOUCHED, sizeof bytes);
    return pac_peek(&of->board, of->roms, of->length, 0, bytes, sizeof bytes) == code && is_all(bytes, sizeof bytes, UNTOUCHED);
}

/* Whether a state file isn't written into a buffer of so many bytes, for a reason, and the buffer stays. */
static int keeps_text(const host *of, size_t size, uint32_t code)
{
    memset(text, UNTOUCHED, sizeof text);
    return pac_save(&of->board, of->roms, of->length, text, size) == code && is_all(text, sizeof text, UNTOUCHED);
}

/* The header's numbers, which the library's answers are compared with from here on. */
static void try_numbers(void)
{
    static const struct {
        const char *what;
        long is, wanted;
    } numbers[] = {
        {"PAC_DONE", PAC_DONE, 0},
        {"PAC_LENGTH", PAC_LENGTH, 1},
        {"PAC_STATE", PAC_STATE, 2},
        {"PAC_TIME", PAC_TIME, 3},
        {"PAC_ROOM", PAC_ROOM, 4},
        {"PAC_V1", PAC_V1, 11},
        {"PAC_V2", PAC_V2, 12},
        {"PAC_V3", PAC_V3, 13},
        {"PAC_V4", PAC_V4, 14},
        {"PAC_V5", PAC_V5, 15},
        {"PAC_V6", PAC_V6, 16},
        {"PAC_GOES", PAC_GOES, 0},
        {"PAC_STOP_OPCODE", PAC_STOP_OPCODE, 1},
        {"PAC_STOP_VECTOR", PAC_STOP_VECTOR, 2},
        {"PAC_P1_LEFT", PAC_P1_LEFT, 0x0002},
        {"PAC_START1", PAC_START1, 0x2000},
        {"PAC_BOARD_SIZE", PAC_BOARD_SIZE, 67756},
        {"PAC_STATE_SIZE", PAC_STATE_SIZE, 67756},
        {"PAC_ROMS_SIZE", PAC_ROMS_SIZE, 25120},
        {"PAC_RGBA_SIZE", PAC_RGBA_SIZE, 258048},
        {"PAC_FRAME_MICROSECONDS", PAC_FRAME_MICROSECONDS, 16500},
        {"PAC_FRAME_SAMPLES", PAC_FRAME_SAMPLES, 1584},
        {"PAC_SWITCHES", PAC_SWITCHES, 0xC9},
    };
    for (size_t at = 0; at < sizeof numbers / sizeof *numbers; at++)
        row(numbers[at].what, numbers[at].is == numbers[at].wanted);
    row("the size of a board that is told", pac_size() == 67756 && pac_matches());
}

/* A ROM block of another length: no call that takes one is done. */
static void try_rom_lengths(void)
{
    static const size_t lengths[] = {0, PAC_ROMS_SIZE - 1, PAC_ROMS_SIZE + 1};
    power_on(&one, cell);
    pac_board before = one.board;
    for (int at = 0; at < 3; at++) {
        long length = (long)(one.length = lengths[at]);
        row_at("pac_init, ROMs of another length", length, init(&one) == PAC_LENGTH);
        uint32_t code = pac_load(&one.board, one.roms, one.length, before.bytes, sizeof before.bytes);
        row_at("pac_load, ROMs of another length", length, code == PAC_LENGTH);
        row_at("the block, ROMs of another length", length, is_same(&one.board, &before));
        row_at("pac_exec, ROMs of another length", length, keeps_run(&one, FRAME, ROOM, PAC_LENGTH));
        row_at("pac_draw, ROMs of another length", length, keeps_picture(&one, PAC_RGBA_SIZE, PAC_LENGTH));
        row_at("pac_save, ROMs of another length", length, keeps_text(&one, PAC_STATE_SIZE, PAC_LENGTH));
        row_at("pac_peek, ROMs of another length", length, keeps_bytes(&one, PAC_LENGTH));
    }
}

/* A buffer of another length. */
static void try_buffer_lengths(void)
{
    static const size_t pictures[] = {0, PAC_RGBA_SIZE - 1, PAC_RGBA_SIZE + 1}, texts[] = {0, PAC_STATE_SIZE - 1, PAC_STATE_SIZE + 1};
    power_on(&one, cell);
    for (int at = 0; at < 3; at++) {
        row_at("a picture's buffer of another length", (long)pictures[at], keeps_picture(&one, pictures[at], PAC_LENGTH));
        row_at("a state file's buffer of another length", (long)texts[at], keeps_text(&one, texts[at], PAC_LENGTH));
    }
}

/* A block that is no board's: no call that takes one is done. The number is that of the byte for which it is none, or -1 where all is 0. */
static void try_no_block(long at)
{
    pac_board before = one.board;
    row_at("pac_reset, a block that is none", at, pac_reset(&one.board) == PAC_STATE);
    row_at("pac_hold, a block that is none", at, pac_hold(&one.board, 1, 2) == PAC_STATE);
    row_at("a block that is none and stays", at, is_same(&one.board, &before));
    row_at("pac_exec, a block that is none", at, keeps_run(&one, FRAME, ROOM, PAC_STATE));
    row_at("pac_draw, a block that is none", at, keeps_picture(&one, PAC_RGBA_SIZE, PAC_STATE));
    row_at("pac_save, a block that is none", at, keeps_text(&one, PAC_STATE_SIZE, PAC_STATE));
    row_at("pac_peek, a block that is none", at, keeps_bytes(&one, PAC_STATE));
}

/* A block of zeros, and those of power-on but for a byte. */
static void try_blocks(void)
{
    static const struct {
        int at;
        uint8_t byte;
    } changes[] = {
        {0, 'p'},           /* another first byte, and another eighth */
        {7, 'e'},
        {VERSION, 1},       /* versions 1, 3 and 258 */
        {VERSION, 3},
        {VERSION + 1, 1},
        {FIRST_DIGEST, 1},  /* the first and the last byte of either digest */
        {FIRST_DIGEST + DIGEST_SIZE - 1, 1},
        {LAST_DIGEST, 1},
        {PAC_BOARD_SIZE - 1, 1},
        {FLAGS, 16},        /* an unused bit */
        {MODE, 3},          /* a mode */
        {BLANKS, 16},       /* sixteen blanks */
        {PICTURE, 16},      /* the colour numbers of the first and the last pixel */
        {LAST_DIGEST - 1, 16},
    };
    lay(&one, cell);
    try_no_block(-1);
    for (size_t at = 0; at < sizeof changes / sizeof *changes; at++) {
        row_at("power-on over a block that is none", changes[at].at, init(&one) == PAC_DONE);
        one.board.bytes[changes[at].at] = changes[at].byte;
        try_no_block(changes[at].at);
    }
}

/* Lays the block of power-on in which all but the first bytes and the version is 0. */
static void lay_block(uint8_t *bytes)
{
    memset(bytes, 0, PAC_BOARD_SIZE);
    memcpy(bytes, "PACSTATE\2", 9);
}

/* The block of power-on, written over other bytes, with the switches as they are set at the factory and with none on. */
static void try_power_on(void)
{
    static pac_board wanted;
    lay_block(wanted.bytes);
    lay(&one, cell);
    memset(&one.board, UNTOUCHED, sizeof one.board);
    row("power-on with no switch on", pac_init(&one.board, one.roms, one.length, 0) == PAC_DONE && is_same(&one.board, &wanted));
    row("a block with no switch on", pac_hold(&one.board, 0, 0) == PAC_DONE && is_same(&one.board, &wanted));
    memset(&one.board, UNTOUCHED, sizeof one.board);
    wanted.bytes[SWITCHES] = 0xC9;
    row("the block of power-on", init(&one) == PAC_DONE && is_same(&one.board, &wanted));
}

/* The last time that a state may have is 2^52 + 22, and the most microseconds that are asked are 2^50. */
static void try_limits(void)
{
    uint64_t latest = ((uint64_t)1 << 52) + 22, most = (uint64_t)1 << 50;
    power_on(&one, cell);
    put(&one.board, TIME, latest), put(&one.board, ASKED, most);
    row("the latest time, and the most that is asked", pac_hold(&one.board, 0, 0) == PAC_DONE);
    row("nothing more, at the latest time", run(&one, 0, ROOM) == PAC_DONE && one.ran.ticks == 0 && one.ran.stop == PAC_GOES);
    row("a microsecond more, at the latest time", keeps_run(&one, 1, ROOM, PAC_TIME));
    put(&one.board, TIME, latest + 1);
    row("a later time", pac_hold(&one.board, 0, 0) == PAC_STATE);
    put(&one.board, TIME, latest), put(&one.board, ASKED, most + 1);
    row("more that is asked", pac_hold(&one.board, 0, 0) == PAC_STATE);
}

/* 2^50 - 10 microseconds were asked, and the time is that of them: 11 are too many, 10 are not. */
static void try_time(void)
{
    uint64_t asked = ((uint64_t)1 << 50) - 10;
    power_on(&one, cell);
    put(&one.board, TIME, 384 * asked / 125), put(&one.board, ASKED, asked);
    row("a microsecond too many", keeps_run(&one, 11, ROOM, PAC_TIME));
    row("many microseconds too many", keeps_run(&one, UINT32_MAX, ROOM, PAC_TIME));
    row("the last microseconds", run(&one, 10, ROOM) == PAC_DONE);
}

/* A frame gives 1,584 samples at most, and a sample is at each 32 T-states, of which 10 microseconds have 30. */
static void try_room(void)
{
    power_on(&one, cell);
    row("a frame, with room for a sample less", keeps_run(&one, FRAME, ROOM - 1, PAC_ROOM));
    row("all the time, with a frame's room", keeps_run(&one, UINT32_MAX, ROOM, PAC_ROOM));
    row("10 microseconds, without room", keeps_run(&one, 10, 0, PAC_ROOM));
    row("10 microseconds, with room for a sample", run(&one, 10, 1) == PAC_DONE);
    row("the rest of the frame", run(&one, FRAME - 10, ROOM) == PAC_DONE);
    power_on(&one, cell); /* a board of a file whose time is long past: all of it would be caught up */
    put(&one.board, ASKED, (uint64_t)1 << 40);
    row("a board that is behind", keeps_run(&one, 0, ROOM, PAC_ROOM));
}

/* Lays the state file in which all but the first bytes, the version and the digests is 0, with a byte at a place, and this last digest. */
static void lay_file(uint8_t *file, int at, uint8_t byte, const uint8_t *last_digest)
{
    memset(file, 0, PAC_STATE_SIZE);
    memcpy(file, "PACSTATE\2", 9);
    memcpy(file + FIRST_DIGEST, roms_digest, DIGEST_SIZE);
    file[at] = byte;
    memcpy(file + LAST_DIGEST, last_digest, DIGEST_SIZE);
}

/* A file is taken: the block is that file with zeros for its digests, and is written as that file again. */
static void try_file(void)
{
    static uint8_t file[PAC_STATE_SIZE];
    static pac_board wanted;
    lay_file(file, VERSION + 1, 0, digest);
    memcpy(wanted.bytes, file, sizeof file);
    memset(wanted.bytes + FIRST_DIGEST, 0, DIGEST_SIZE), memset(wanted.bytes + LAST_DIGEST, 0, DIGEST_SIZE);
    lay(&one, cell);
    row("a state file is taken", pac_load(&one.board, one.roms, one.length, file, sizeof file) == PAC_DONE);
    row("the block of a state file", is_same(&one.board, &wanted));
    memset(text, UNTOUCHED, sizeof text);
    row("the state file is written again", pac_save(&one.board, one.roms, one.length, text, PAC_STATE_SIZE) == PAC_DONE);
    row("and is that file", memcmp(text, file, sizeof file) == 0 && text[PAC_STATE_SIZE] == UNTOUCHED);
}

/* Files that aren't taken, and the block stays. */
static void try_refused_files(void)
{
    static const struct {
        const char *what;
        int at;
        uint8_t byte;
        const uint8_t *digest;
        size_t length;
        uint32_t code;
    } files[] = {
        {"a file that begins otherwise", 0, 0, digest, PAC_STATE_SIZE, PAC_V1},
        {"a file of version 3", VERSION, 3, digest, PAC_STATE_SIZE, PAC_V2},
        {"a file without its last byte", VERSION + 1, 0, digest, PAC_STATE_SIZE - 1, PAC_V3},
        {"a file of nothing", VERSION + 1, 0, digest, 0, PAC_V3},
        {"a file with an unused bit", FLAGS, 16, unused_bit_digest, PAC_STATE_SIZE, PAC_V4},
        {"a file whose digest doesn't fit", FLAGS, 16, digest, PAC_STATE_SIZE, PAC_V5},
        {"a file of another ROM set", FIRST_DIGEST, 0x58, other_set_digest, PAC_STATE_SIZE, PAC_V6},
    };
    static uint8_t file[PAC_STATE_SIZE];
    for (size_t at = 0; at < sizeof files / sizeof *files; at++) {
        lay_file(file, files[at].at, files[at].byte, files[at].digest);
        power_on(&one, cell);
        pac_board before = one.board;
        uint32_t code = pac_load(&one.board, one.roms, one.length, file, files[at].length);
        row(files[at].what, code == files[at].code && is_same(&one.board, &before));
    }
}

/* A board that ran is written, and taken by a host whose block was another's. */
static void try_saved(void)
{
    power_on(&one, cell);
    row("a run before a save", run(&one, 10000, ROOM) == PAC_DONE);
    pac_board kept = one.board;
    row("a board that ran is saved", pac_save(&one.board, one.roms, one.length, text, PAC_STATE_SIZE) == PAC_DONE);
    row("the block of a save stays", is_same(&one.board, &kept));
    power_on(&other, cell);
    row("a board that ran is loaded", pac_load(&other.board, other.roms, other.length, text, PAC_STATE_SIZE) == PAC_DONE);
    row("the block of a load", is_same(&other.board, &kept));
}

/* Lays the state after 2,625 microseconds of `cell`, which are 8,064 T-states, in one of the two versions, with no digest: lines 0 and 1
 * have passed, and version 1 has none since the last blank. */
static void lay_passed(uint8_t *bytes, uint8_t version)
{
    static const uint8_t processor[] = {0x06, 0x00, 0x00, 0x5D, 4}; /* PC, I, R of 2,013 fetches, and halted */
    lay_block(bytes);
    bytes[VERSION] = version;
    bytes[REGISTERS] = 0x42;
    memcpy(bytes + PC, processor, sizeof processor);
    memcpy(bytes + TIME, "\x80\x1F", 2), memcpy(bytes + STEPS, "\xDD\x07", 2), memcpy(bytes + ASKED, "\x41\x0A", 2);
    bytes[CELL] = 0x42, bytes[SWITCHES] = 0xC9;
    if (version == 2)
        memset(bytes + PICTURE + 16, 2, 8), memset(bytes + PICTURE + WIDTH + 16, 2, 8);
}

/* Writes the digests of that state as a file. */
static void seal_passed(uint8_t *file, const uint8_t *last_digest)
{
    memcpy(file + FIRST_DIGEST, shown_roms_digest, DIGEST_SIZE);
    memcpy(file + LAST_DIGEST, last_digest, DIGEST_SIZE);
}

/* A board within a frame: its block, its file, and the same of a file of version 1, whose lines are composed when it is taken. */
static void try_passed_lines(void)
{
    static uint8_t file[PAC_STATE_SIZE];
    static pac_board wanted;
    lay_passed(wanted.bytes, 2);
    lay(&one, cell);
    memset(one.roms + TILE, 0xFF, TILE_SIZE), one.roms[LOOKUP + 3] = 2; /* each pixel of the tile is 3, which is looked up */
    row("a run of two lines", init(&one) == PAC_DONE && run(&one, 2625, ROOM) == PAC_DONE);
    row("the block after two lines", is_same(&one.board, &wanted));
    lay_passed(file, 2), seal_passed(file, passed_digest);
    row("a save after two lines", pac_save(&one.board, one.roms, one.length, text, PAC_STATE_SIZE) == PAC_DONE);
    row("the file after two lines", memcmp(text, file, sizeof file) == 0);
    lay_passed(file, 1), seal_passed(file, old_digest);
    memset(&one.board, UNTOUCHED, sizeof one.board);
    row("a file of version 1", pac_load(&one.board, one.roms, one.length, file, sizeof file) == PAC_DONE);
    row("the block of a file of version 1", is_same(&one.board, &wanted));
    size_t size = (pac_live_size() + 15) / 16 * 16;
    pac_live live = {aligned_alloc(16, size), size, 0};
    memset(&one.board, UNTOUCHED, sizeof one.board);
    row("a live board", live.at != NULL && pac_live_open(&live, one.roms, one.length, PAC_SWITCHES) == PAC_DONE);
    row("a file of version 1 on it", pac_live_load(&live, file, sizeof file) == PAC_DONE && pac_live_give(&live, &one.board) == PAC_DONE);
    row("the block of that board", is_same(&one.board, &wanted));
    free(live.at);
}

/* The registers of a block are 1, 2, 3 and so on. What pushes them stands at their PC, 1817H. */
static void try_registers(void)
{
    static const uint8_t pushed[] = {0x10, 0x0F, 0x0E, 0x0D, 0x0C, 0x0B, 0x0A, 0x09, 0x13, 0x14, 0x11, 0x12, 8, 7, 6, 5, 4, 3, 2, 1};
    static const uint8_t written[] = {0x15, 0x16, 25, 26 + 23}; /* SP, I, and R after 23 fetches */
    lay(&one, cell);
    memcpy(one.roms + 0x1817, stores, sizeof stores);
    row("power-on with what pushes", init(&one) == PAC_DONE);
    for (uint8_t at = 0; at < 26; at++)
        one.board.bytes[REGISTERS + at] = (uint8_t)(at + 1);
    one.board.bytes[FLAGS] = 10, one.board.bytes[MODE] = 2; /* IFF2, and just after EI */
    row("a run of registers", run(&one, 100, ROOM) == PAC_DONE);
    row("the registers that were pushed", memcmp(one.board.bytes + READ + 0x2C, pushed, sizeof pushed) == 0);
    row("SP, I and R", memcmp(one.board.bytes + READ, written, sizeof written) == 0);
    row("IFF2, as LD A,I has it in P/V", (one.board.bytes[READ + 0x2A] & 4) == 4);
    row("IFF2, halted and mode 2", has(&one.board, FLAGS, 2 + 4, 2));
}

/* What the processor would read at an address; -1 where that isn't told. */
static int peeked(const host *of, uint16_t at)
{
    uint8_t byte = UNTOUCHED;
    return pac_peek_checked(&of->board, of->roms, of->length, at, &byte, 1) == PAC_DONE ? byte : -1;
}

/* The RAMs of a block, its inputs and its switches, as a program reads them. */
static void try_memory(void)
{
    static const uint8_t wanted[] = {0x11, 0x22, 0x33, 0x44, 0xFE, 0xDF, 0x55};
    static const uint16_t places[] = {0x4000, 0x4400, 0x4C00, 0x4FFF, 0x5000, 0x5040, 0x5080};
    power_on(&one, copies);
    one.board.bytes[TILE_RAM] = 0x11, one.board.bytes[COLOUR_RAM] = 0x22;
    one.board.bytes[READ] = 0x33, one.board.bytes[LAST_RAM] = 0x44;
    one.board.bytes[HELD] = 0x01, one.board.bytes[HELD + 1] = 0x20, one.board.bytes[SWITCHES] = 0x55;
    pac_board before = one.board;
    for (size_t at = 0; at < sizeof places / sizeof *places; at++)
        row_at("what it will read", places[at], peeked(&one, places[at]) == wanted[at] && peeked(&one, 0x8000 | places[at]) == wanted[at]);
    uint8_t bytes[5] = {UNTOUCHED, UNTOUCHED, UNTOUCHED, UNTOUCHED, UNTOUCHED};
    row("from FFFEH on", pac_peek(&one.board, one.roms, one.length, 0xFFFE, bytes, 4) == PAC_DONE && bytes[4] == UNTOUCHED);
    row("and at 0000H", memcmp(bytes + 2, copies, 2) == 0);
    row("no byte", pac_peek(&one.board, one.roms, one.length, 0, bytes + 4, 0) == PAC_DONE && bytes[4] == UNTOUCHED);
    row("a look changes nothing", is_same(&one.board, &before));
    row("a run that copies", run(&one, 100, ROOM) == PAC_DONE);
    row("what it has read", memcmp(one.board.bytes + READ + 0x10, wanted, sizeof wanted) == 0);
}

/* A request that stands in a block, with vector 26H, is accepted in mode 2. A reset comes with the sixteenth blank, and not with the one
 * before it. */
static void try_latches(void)
{
    static const uint8_t latches[] = {0x81, 0x26, 1}; /* latch, vector, request */
    power_on(&one, handler);
    memcpy(one.board.bytes + LATCH, latches, sizeof latches);
    one.board.bytes[FLAGS] = 3, one.board.bytes[MODE] = 2, one.board.bytes[SP + 1] = 0x4D; /* both flip-flops, SP 4D00H */
    row("an interrupt that is requested", run(&one, 10, ROOM) == PAC_DONE && has(&one.board, PC, 0x31, 0x00));
    row("PC before it, on the stack", has(&one.board, READ + 0xFE, 0x00, 0x00) && has(&one.board, SP, 0xFE, 0x4C));
    row("latch and vector stay, and no request", memcmp(one.board.bytes + LATCH, "\x81\x26\0", 3) == 0);
    for (uint8_t blanks = 14; blanks <= 15; blanks++) {
        power_on(&one, cell);
        one.board.bytes[LATCH] = 0x81, one.board.bytes[BLANKS] = blanks;
        row_at("a frame after blanks", blanks, run(&one, FRAME, ROOM) == PAC_DONE);
        row_at("PC after blanks", blanks, has(&one.board, PC, blanks == 15 ? 0 : 6, 0));
        row_at("the latch after blanks", blanks, one.board.bytes[LATCH] == (blanks == 15 ? 0 : 0x81));
        row_at("the count of blanks", blanks, one.board.bytes[BLANKS] == (blanks == 15 ? 0 : 15));
    }
}

/* Lays a board with coordinates, registers of the wave generator and accumulators, and this that is due. */
static void power_on_with(host *to, const uint8_t *due)
{
    static const uint8_t accumulators[] = {1, 2, 3, 0, 4, 5, 6, 0, 7, 8, 9, 0};
    power_on(to, cell);
    to->board.bytes[COORDINATES] = 0x77, to->board.bytes[COORDINATES + 1] = 0x88;
    to->board.bytes[WAVE + 5] = 7, to->board.bytes[WAVE + 31] = 9;
    memcpy(to->board.bytes + ACCUMULATORS, accumulators, sizeof accumulators);
    memcpy(to->board.bytes + DUE, due, 3);
}

/* What is due is kept in a file, and given by the next run, before any time goes by. */
static void try_due(void)
{
    static const uint8_t due[][3] = {{1, 0xFE, 0xFF}, {2, 0, 0}, {3, 0xFE, 0xFF}, {0, 0, 0}};
    for (int at = 3; at >= 0; at--) {
        power_on_with(&one, due[at]);
        pac_board kept = one.board;
        row_at("a save of what is due", at, pac_save(&one.board, one.roms, one.length, text, PAC_STATE_SIZE) == PAC_DONE);
        memset(&one.board, UNTOUCHED, sizeof one.board);
        row_at("a load of what is due", at, pac_load(&one.board, one.roms, one.length, text, PAC_STATE_SIZE) == PAC_DONE);
        row_at("the block of what is due", at, is_same(&one.board, &kept));
        row_at("a run of no time", at, run(&one, 0, 1) == PAC_DONE && one.ran.ticks == 0);
        int is_sound = due[at][0] & 1;
        row_at("the sample that was due", at, one.ran.samples == (uint32_t)is_sound && one.samples[0] == (is_sound ? -2 : 0x5555));
        row_at("the picture that was due", at, one.ran.pictures == due[at][0] >> 1);
        memset(kept.bytes + DUE, 0, 3);
        row_at("nothing is due then", at, is_same(&one.board, &kept));
    }
}

/* A frame: LD A,n has 7 T-states, LD (nn),A 13, and each halted step 4: the first end that isn't before the frame's end. */
static void try_frame(void)
{
    power_on(&one, cell);
    row("a frame", run(&one, FRAME, ROOM) == PAC_DONE);
    row("a frame's T-states", one.ran.ticks == 50688);
    row("a frame's samples, picture and stop", one.ran.samples == 1584 && one.ran.pictures == 1 && one.ran.stop == PAC_GOES);
    row("no place of a stop", one.ran.pc == 0 && is_all(one.ran.bytes, sizeof one.ran.bytes, 0) && one.ran.vector == 0 && one.ran.zero == 0);
    row("a frame's last sample, of silence", one.samples[1583] == 0);
    row("no sample after it", one.samples[1584] == 0x5555);
    row("the cell that was written", one.board.bytes[CELL] == 0x42);
}

/* Two runs of half a frame leave the block that the run at once leaves. The wave PROM has 0 everywhere, which is 8 steps below the middle:
 * 64 * (0 - 8) * 15 is each sample. */
static void try_cut_time(void)
{
    power_on(&one, sound);
    row("a frame with sound", run(&one, FRAME, ROOM) == PAC_DONE);
    row("its last sample", one.samples[1583] == -7680);
    power_on(&other, sound);
    row("half a frame", run(&other, 8251, ROOM) == PAC_DONE);
    row("a sample of it", other.samples[40] == -7680);
    row("no sample after its own", other.samples[other.ran.samples] == 0x5555);
    pac_ran first = other.ran;
    pac_board kept = other.board;
    row("the other half", run(&other, 8249, ROOM) == PAC_DONE);
    row("the block of both halves", is_same(&other.board, &one.board));
    row("the samples of both halves", first.samples + other.ran.samples == 1584);
    row("the T-states of both halves", first.ticks + other.ran.ticks == one.ran.ticks);
    row("the pictures of both halves", first.pictures == 0 && other.ran.pictures == 1);
    other.board = kept; /* a block that was kept is the way back */
    row("the other half again", run(&other, 8249, ROOM) == PAC_DONE);
    row("its block again", is_same(&other.board, &one.board));
}

/* Colour 0 is red where the colour PROM has 7; the last pixel of the first line gets colour 1, which is black. */
static void try_picture(void)
{
    static const uint8_t pixels[] = {255, 0, 0, 255, 0, 0, 0, 255, 255, 0, 0, 255}, reds[] = {255, 0, 0, 255, 255, 0, 0, 255};
    power_on(&one, cell);
    one.board.bytes[PICTURE + 287] = 1;
    memset(rgba, UNTOUCHED, sizeof rgba);
    row("a picture", pac_draw(&one.board, one.roms, one.length, rgba, PAC_RGBA_SIZE) == PAC_DONE);
    row("its first pixels", memcmp(rgba, reds, 8) == 0);
    row("the pixels at the first line's end", memcmp(rgba + 1144, pixels, 12) == 0);
    row("its last pixel, and nothing after it", memcmp(rgba + 258044, reds, 4) == 0 && rgba[258048] == UNTOUCHED);
}

/* An input's bit is 0 where it is held. */
static void try_inputs(void)
{
    power_on(&one, ports);
    row("P1_LEFT and START1 are held", pac_hold(&one.board, PAC_P1_LEFT | PAC_START1, 0) == PAC_DONE && has(&one.board, HELD, 0x02, 0x20));
    row("time with P1_LEFT", run(&one, 100, ROOM) == PAC_DONE && one.board.bytes[READ] == 0xFD);
    row("they are let go, and P1_UP is held", pac_hold(&one.board, 0x0001, 0x2002) == PAC_DONE && has(&one.board, HELD, 0x01, 0x00));
    row("what is let go and held again is held", pac_hold(&one.board, 0x0003, 0xFFFF) == PAC_DONE && has(&one.board, HELD, 0x03, 0x00));
    row("time with P1_UP and P1_LEFT", run(&one, 100, ROOM) == PAC_DONE && one.board.bytes[READ] == 0xFC);
}

/* NOP before what is no instruction has 4 T-states. A stop takes no time, and the next call meets it again. */
static void try_stop(void)
{
    static const uint8_t bytes[] = {0xED, 0x00, 0x12, 0x34};
    power_on(&one, undocumented);
    for (int ticks = 4; ticks >= 0; ticks -= 4) {
        row_at("a run that stops", ticks, run(&one, 100, ROOM) == PAC_DONE && one.ran.ticks == (uint64_t)ticks);
        row_at("what came before the stop", ticks, one.ran.samples == 0 && one.ran.pictures == 0);
        row_at("the place of a stop", ticks, one.ran.stop == PAC_STOP_OPCODE && one.ran.pc == 1 && memcmp(one.ran.bytes, bytes, 4) == 0);
        row_at("no vector of it", ticks, one.ran.vector == 0 && one.ran.zero == 0);
    }
}

/* Lets a stopped host's board run, with room for no more than these microseconds: whether it meets its stop, and stays as it is. */
static int stays_stopped(host *of, uint32_t microseconds)
{
    pac_board before = of->board;
    int is_done = run(of, microseconds, microseconds * 12 / 125 + 2) == PAC_DONE && of->ran.stop == PAC_STOP_OPCODE;
    return is_done && of->ran.ticks == 0 && of->ran.samples == 0 && of->ran.pictures == 0 && is_same(&of->board, &before);
}

/* A board that has stopped at 4 T-states isn't over what was asked of it: 2 microseconds are the least that have more, 6 T-states. After a reset it
 * stops at 8, and 3 have 9. With NOPs in its place it goes on from there: 12 microseconds are over at 36, so 10 more are 32 T-states. */
static void try_left(void)
{
    static const uint32_t times[] = {0, 1, 100, FRAME, FRAME, FRAME};
    power_on(&one, undocumented);
    row("a frame with a stop", run(&one, FRAME, ROOM) == PAC_DONE && one.ran.stop == PAC_STOP_OPCODE && one.ran.ticks == 4);
    row("what was asked up to the stop", has(&one.board, ASKED, 2, 0) && is_all(one.board.bytes + ASKED + 2, 6, 0));
    for (size_t at = 0; at < sizeof times / sizeof *times; at++)
        row_at("the stop is met again", (long)at, stays_stopped(&one, times[at]));
    pac_board stopped = one.board;
    put(&one.board, ASKED, 10000); /* as a file of the program's may have it */
    row("a stop far behind what was asked", run(&one, 0, ROOM) == PAC_DONE && one.ran.stop == PAC_STOP_OPCODE && is_same(&one.board, &stopped));
    row("a reset at the stop", pac_reset(&one.board) == PAC_DONE && run(&one, 100, 11) == PAC_DONE && one.ran.ticks == 4);
    row("the stop after it", one.ran.stop == PAC_STOP_OPCODE && has(&one.board, ASKED, 3, 0) && has(&one.board, TIME, 8, 0));
    one.board = stopped;
    memset(one.roms, 0, sizeof(program));
    row("other ROMs at the stop, for no time", run(&one, 0, 2) == PAC_DONE && one.ran.stop == PAC_GOES && one.ran.ticks == 4);
    one.board = stopped;
    row("other ROMs at the stop", run(&one, 10, 2) == PAC_DONE && one.ran.stop == PAC_GOES && one.ran.ticks == 32);
    row("what was asked then", has(&one.board, ASKED, 12, 0) && has(&one.board, PC, 9, 0));
    one.board = stopped;
    row("a frame of them", run(&one, FRAME, ROOM + 2) == PAC_DONE && one.ran.stop == PAC_GOES && one.ran.samples == 1584);
}

/* Time that is cut at a stop, before it and after it is time at once: the interrupt at the first frame's end is a stop. It comes
 * after 57 T-states and halted steps of 4, at 50,690 or so; 16,501 microseconds are the least that have more, 50,691. */
static void try_cut_stop(void)
{
    static const uint32_t parts[] = {0, 5, 10, 11, 60, 110};
    power_on(&other, vector);
    row("nearly a frame", run(&other, FRAME - 10, ROOM) == PAC_DONE && other.ran.stop == PAC_GOES);
    pac_board before = other.board;
    row("a run to the stop", run(&other, 110, 12) == PAC_DONE && other.ran.stop == PAC_STOP_VECTOR && has(&other.board, ASKED, 0x75, 0x40));
    pac_ran whole = other.ran;
    power_on(&one, vector);
    for (size_t at = 0; at < sizeof parts / sizeof *parts; at++) {
        one.board = before;
        row_at("a part of it", (long)at, run(&one, parts[at], parts[at] * 12 / 125 + 2) == PAC_DONE);
        pac_ran first = one.ran;
        row_at("the other part", (long)at, run(&one, 110 - parts[at], (110 - parts[at]) * 12 / 125 + 2) == PAC_DONE);
        row_at("the block of both parts", (long)at, is_same(&one.board, &other.board) && one.ran.stop == PAC_STOP_VECTOR);
        row_at("what both parts gave", (long)at, first.ticks + one.ran.ticks == whole.ticks && first.samples + one.ran.samples == whole.samples);
    }
}

/* The interrupt at the first frame's end finds a vector that is no RST. */
static void try_vector(void)
{
    power_on(&one, vector);
    row("two frames, with a frame's room", run(&one, 2 * FRAME, ROOM + 2) == PAC_ROOM);
    row("a frame before the interrupt", run(&one, FRAME, ROOM) == PAC_DONE && one.ran.stop == PAC_GOES);
    row("the interrupt", run(&one, 100, ROOM) == PAC_DONE && one.ran.stop == PAC_STOP_VECTOR && one.ran.vector == 5);
    row("the place that it would return to", one.ran.pc == 13);
}

/* A reset: PC is 0 again, and the RAM stays. */
static void try_reset(void)
{
    power_on(&one, cell);
    row("a run before a reset", run(&one, 100, ROOM) == PAC_DONE);
    row("PC before a reset", has(&one.board, PC, 0x05, 0x00) || has(&one.board, PC, 0x06, 0x00));
    row("a reset", pac_reset(&one.board) == PAC_DONE);
    row("PC after a reset", has(&one.board, PC, 0x00, 0x00));
    row("the RAM after a reset", one.board.bytes[CELL] == 0x42);
}

int main(void)
{
    try_numbers();
    try_rom_lengths(), try_buffer_lengths(), try_power_on(), try_blocks(), try_limits(), try_time(), try_room();
    try_file(), try_refused_files(), try_saved(), try_passed_lines();
    try_registers(), try_memory(), try_latches(), try_due();
    try_frame(), try_cut_time(), try_picture(), try_inputs(), try_stop(), try_left(), try_cut_stop(), try_vector(), try_reset();
    printf("%d passed, %d failed\n", passed, failed);
    return failed != 0;
}
