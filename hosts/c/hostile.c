/* Tries the library on input that no good host hands in: wrong lengths, blocks that are no board's state, too little room, too much time,
 * and 10,000 states of random bytes.
 *
 *   hostile ROMS [each]
 *
 * ROMS is made by hosts/roms.py. With `each` a state file is cut at each length, too, and has each byte set, which takes some 20 seconds.
 * Each buffer ends where its page does, with a page after it that nobody may touch, and what a call only reads is in pages that nobody may
 * write: a byte too far ends the program. The last line is `N passed, M failed`; the exit status is 0 where M is 0.
 */
#define _DEFAULT_SOURCE
#include "../pacboard.h"

#include <stdio.h>
#include <stdlib.h>
#include <string.h>
#include <sys/mman.h>
#include <time.h>
#include <unistd.h>

enum {
    STATES = 10000,
    FRAMES = 90,         /* of the good state */
    MICROSECONDS = 1000, /* that a random state runs */
    ROOM = MICROSECONDS * 12 / 125 + 2,
    VERSION = 8,  /* the places of a block, by docs/FORMATS.md */
    FIRST_DIGEST = 10,
    TIME = 58,
    STEPS = 66,
    ASKED = 74,
    RAMS = 82, /* all three */
    RAMS_SIZE = 3072,
    PICTURE = 3224,
    WIDTH = 288,
    LAST_DIGEST = 67736,
};

static int passed, failed;
static const uint8_t *roms;
static pac_board *board, *other;
static uint8_t *rgba, *text;
static int16_t *samples;
static pac_ran ran;

/* Counts what was tried, and names what failed. */
static void row(const char *what, int is_so)
{
    passed += is_so != 0, failed += is_so == 0;
    if (!is_so)
        printf("FAILED: %s\n", what);
}

/* Counts what was tried at each of some places, and names what failed, with the first place at which it did. */
static void row_at(const char *what, size_t at, int is_so)
{
    passed += is_so != 0, failed += is_so == 0;
    if (!is_so)
        printf("FAILED: %s, %zu\n", what, at);
}

/* So many bytes at the end of a page, with a page after it that nobody may touch. */
static void *guarded(size_t size)
{
    size_t page = (size_t)sysconf(_SC_PAGESIZE), pages = (size + page - 1) / page * page;
    uint8_t *at = mmap(NULL, pages + page, PROT_READ | PROT_WRITE, MAP_PRIVATE | MAP_ANONYMOUS, -1, 0);
    if (at == MAP_FAILED || mprotect(at + pages, page, PROT_NONE) != 0)
        perror("hostile"), exit(3);
    return at + pages - size;
}

/* A copy of bytes that nobody may write. */
static const uint8_t *constant(const uint8_t *bytes, size_t size)
{
    size_t page = (size_t)sysconf(_SC_PAGESIZE), pages = (size + page - 1) / page * page;
    uint8_t *copy = guarded(size);
    memcpy(copy, bytes, size);
    if (pages != 0 && mprotect(copy + size - pages, pages, PROT_READ) != 0) /* (qemu refuses a range without a page) */
        perror("hostile"), exit(3);
    return copy;
}

/* The next of a row of numbers that is the same each time. */
static uint32_t random_number(void)
{
    static uint64_t state = 88172645463325252u;
    state ^= state << 13, state ^= state >> 7, state ^= state << 17;
    return (uint32_t)(state >> 16);
}

/* Writes a number into a block, the low byte first. */
static void put(pac_board *to, int at, uint64_t number)
{
    for (int byte = 0; byte < 8; byte++)
        to->bytes[at + byte] = (uint8_t)(number >> 8 * byte);
}

/* The answer of pac_exec, with room for so many samples; whether it kept to what it says is counted where it doesn't. */
static uint32_t run(uint32_t microseconds, size_t capacity)
{
    static pac_board before;
    static const pac_ran nothing = {.ticks = 77, .pc = 7};
    int16_t *room = samples + ROOM - capacity; /* it ends with the page */
    before = *board, ran = nothing;
    memset(samples, 0x55, ROOM * sizeof *samples);
    uint32_t code = pac_exec(board, roms, PAC_ROMS_SIZE, microseconds, room, capacity, &ran);
    for (size_t at = code == PAC_DONE ? ran.samples : 0; at < capacity; at++)
        if (room[at] != 0x5555)
            row("a sample that wasn't given is untouched", 0);
    if (code == PAC_DONE && (ran.samples > capacity || ran.stop > PAC_STOP_VECTOR || ran.zero != 0))
        row("what was done is in its range", 0);
    if (code != PAC_DONE && (memcmp(board, &before, sizeof before) != 0 || memcmp(&ran, &nothing, sizeof ran) != 0))
        row("a run that is refused changes nothing", 0);
    return code;
}

/* Tries each call on a copy of `other`. Whether it is a state all have to say alike, and a state comes back from its state file. */
static int is_state(void)
{
    *board = *other;
    uint32_t code = pac_hold(board, 0, 0);
    int is_alike = code == PAC_DONE || code == PAC_STATE;
    is_alike &= memcmp(board, other, sizeof *board) == 0;
    is_alike &= pac_draw(board, roms, PAC_ROMS_SIZE, rgba, PAC_RGBA_SIZE) == code;
    is_alike &= pac_save(board, roms, PAC_ROMS_SIZE, text, PAC_STATE_SIZE) == code;
    if (code == PAC_DONE) {
        memset(board, 0, sizeof *board);
        is_alike &= pac_load(board, roms, PAC_ROMS_SIZE, text, PAC_STATE_SIZE) == PAC_DONE && memcmp(board, other, sizeof *board) == 0;
    }
    uint32_t ran_code = run(MICROSECONDS, ROOM);
    is_alike &= code == PAC_DONE ? ran_code == PAC_DONE || ran_code == PAC_TIME || ran_code == PAC_ROOM : ran_code == PAC_STATE;
    if (ran_code == PAC_DONE)
        is_alike &= pac_hold(board, 0, 0) == PAC_DONE;
    *board = *other;
    is_alike &= pac_reset(board) == code && (code == PAC_DONE || memcmp(board, other, sizeof *board) == 0);
    if (!is_alike)
        row("all calls say of a block alike whether it is a state", 0);
    return code == PAC_DONE;
}

/* Wrong lengths, at each call that takes one. */
static void try_lengths(const pac_board *good)
{
    static const size_t wrong[] = {0, PAC_ROMS_SIZE - 1};
    for (int at = 0; at < 2; at++) {
        size_t length = wrong[at];
        const uint8_t *cut = constant(roms, length);
        *board = *good;
        row("pac_init, a ROM block of another length", pac_init(board, cut, length, PAC_SWITCHES) == PAC_LENGTH);
        row("pac_exec, a ROM block of another length", pac_exec(board, cut, length, 1, samples, ROOM, &ran) == PAC_LENGTH);
        row("pac_draw, a ROM block of another length", pac_draw(board, cut, length, rgba, PAC_RGBA_SIZE) == PAC_LENGTH);
        row("pac_save, a ROM block of another length", pac_save(board, cut, length, text, PAC_STATE_SIZE) == PAC_LENGTH);
        row("pac_load, a ROM block of another length", pac_load(board, cut, length, text, PAC_STATE_SIZE) == PAC_LENGTH);
        row("a board that stays at wrong lengths", memcmp(board, good, sizeof *good) == 0);
    }
    const uint8_t *long_roms = constant(memcpy(guarded(PAC_ROMS_SIZE + 1), roms, PAC_ROMS_SIZE), PAC_ROMS_SIZE + 1);
    row("a ROM block that is too long", pac_init(board, long_roms, PAC_ROMS_SIZE + 1, PAC_SWITCHES) == PAC_LENGTH);
    *board = *good;
    row("a picture's buffer that is too short", pac_draw(board, roms, PAC_ROMS_SIZE, rgba + 1, PAC_RGBA_SIZE - 1) == PAC_LENGTH);
    row("a picture's buffer of nothing", pac_draw(board, roms, PAC_ROMS_SIZE, rgba, 0) == PAC_LENGTH);
    row("a state file's buffer that is too short", pac_save(board, roms, PAC_ROMS_SIZE, text + 1, PAC_STATE_SIZE - 1) == PAC_LENGTH);
    row("a pointer that is null", pac_init_checked(NULL, roms, PAC_ROMS_SIZE, 0) == PAC_NULL);
}

/* Blocks that are no state: zeros, FFH, and a good one but for a byte. */
static void try_blocks(const pac_board *good)
{
    memset(other, 0, sizeof *other);
    row("a state of zeros", !is_state());
    memset(other, 0xFF, sizeof *other);
    row("a state of FFH", !is_state());
    *other = *good, other->bytes[VERSION] = 1;
    row("a state of version 1", !is_state());
    *other = *good, other->bytes[VERSION] = 3;
    row("a state of version 3", !is_state());
    *other = *good, other->bytes[FIRST_DIGEST] = 1;
    row("a state with a digest of the ROM set", !is_state());
    *other = *good, other->bytes[PAC_BOARD_SIZE - 1] = 1;
    row("a state with a digest at its end", !is_state());
    *other = *good, other->bytes[PICTURE] = 16;
    row("a state with a colour number of 16", !is_state());
    *other = *good, put(other, STEPS, (uint64_t)1 << 60);
    row("a state with more steps than its time has room for", !is_state());
    *other = *good;
    row("a good state", is_state());
}

/* The least room that a run is given, and one sample less. */
static void try_room(const pac_board *good)
{
    size_t least = 0;
    for (*board = *good; least < ROOM && run(MICROSECONDS, least) == PAC_ROOM; least++) {
    }
    row("room that is always enough", least <= ROOM && least <= MICROSECONDS * 12 / 125 + 2);
    row("room for the samples that come", least >= ran.samples && ran.samples > 0);
    *board = *good;
    row("room for one sample less", run(MICROSECONDS, least - 1) == PAC_ROOM);
    row("and then with it", run(MICROSECONDS, least) == PAC_DONE);
    *board = *good;
    row("a run of nothing, without room", run(0, 2) == PAC_DONE && ran.ticks == 0 && ran.samples == 0);
    row("more time than the room is for", run(UINT32_MAX, ROOM) == PAC_ROOM);
}

/* A board that stops at once, since its program was exchanged for one that has no instruction: it stays as it is in each further call, with room for
 * that call's time alone, and goes on with its own program. */
static void try_stops(const pac_board *good)
{
    static uint8_t none[PAC_ROMS_SIZE];
    memset(none, 0xED, sizeof none);
    const uint8_t *others = constant(none, sizeof none);
    uint32_t code = PAC_DONE;
    *board = *good;
    for (int at = 0; at < 100 && code == PAC_DONE; at++) {
        code = pac_exec(board, others, PAC_ROMS_SIZE, MICROSECONDS, samples, ROOM, &ran);
        if (at == 0)
            row("a board that stops", code == PAC_DONE && ran.stop == PAC_STOP_OPCODE), *other = *board;
    }
    row("and stops a hundred times", code == PAC_DONE && ran.ticks == 0 && memcmp(board, other, sizeof *board) == 0);
    row("its own program again", run(MICROSECONDS, ROOM) == PAC_DONE && ran.stop == PAC_GOES && ran.ticks >= MICROSECONDS * 384 / 125);
    *board = *other;
    row("a reset at the stop", pac_reset(board) == PAC_DONE && run(MICROSECONDS, ROOM) == PAC_DONE && ran.stop == PAC_GOES);
}

/* The last microsecond of a board's life. */
static void try_time(const pac_board *good)
{
    uint64_t most = (uint64_t)1 << 50;
    *board = *good;
    put(board, ASKED, most - 5), put(board, TIME, (most - 5) * 384 / 125);
    row("more than 2^50 microseconds in all", run(6, ROOM) == PAC_TIME && run(UINT32_MAX, ROOM) == PAC_TIME);
    row("2^50 microseconds in all", run(5, ROOM) == PAC_DONE);
    row("one more", run(1, ROOM) == PAC_TIME && run(0, ROOM) == PAC_DONE);
    *other = *good, put(other, ASKED, most + 1);
    row("a state that has asked for more", !is_state());
    *board = *good, put(board, ASKED, most - 5);
    row("a state that is far behind what it has asked", run(1, ROOM) == PAC_ROOM);
}

/* State files that are cut or damaged; `text` has a good one. */
static void try_files(const pac_board *good)
{
    uint8_t file[PAC_STATE_SIZE];
    *board = *other = *good;
    row("a good state file", pac_save(good, roms, PAC_ROMS_SIZE, text, PAC_STATE_SIZE) == PAC_DONE);
    memcpy(file, text, sizeof file);
    for (size_t length = 0; length < 200; length++)
        if (pac_load(board, roms, PAC_ROMS_SIZE, constant(file, length), length) != PAC_V3)
            row("a state file that is cut", 0);
    static const int places[] = {0, VERSION, FIRST_DIGEST, ASKED, PICTURE, LAST_DIGEST, PAC_STATE_SIZE - 1};
    static const uint32_t codes[] = {PAC_V1, PAC_V2, PAC_V5, PAC_V5, PAC_V5, PAC_V5, PAC_V5};
    for (int at = 0; at < 7; at++) {
        memcpy(text, file, sizeof file);
        text[places[at]] ^= 0x40;
        row("a state file with a byte that differs", pac_load(board, roms, PAC_ROMS_SIZE, text, PAC_STATE_SIZE) == codes[at]);
    }
    uint8_t *others = memcpy(guarded(PAC_ROMS_SIZE), roms, PAC_ROMS_SIZE);
    others[0] ^= 1;
    row("a state file of another ROM set", pac_load(board, others, PAC_ROMS_SIZE, file, sizeof file) == PAC_V6);
    row("a board that stays when a file is refused", memcmp(board, other, sizeof *board) == 0);
    row("and then the file", pac_load(board, roms, PAC_ROMS_SIZE, file, sizeof file) == PAC_DONE && memcmp(board, good, sizeof *board) == 0);
}

/* Whether the file in `text` with a byte at a place is refused with this code, or taken where that byte was there. It is as before then. */
static int is_judged(int at, uint8_t byte, uint32_t code)
{
    uint8_t before = text[at];
    text[at] = byte;
    int is_so = pac_load(board, roms, PAC_ROMS_SIZE, text, PAC_STATE_SIZE) == (before == byte ? PAC_DONE : code);
    text[at] = before;
    return is_so;
}

/* A file that is cut at each length. */
static void try_each_length(const uint8_t *file)
{
    size_t length = 0;
    while (length < PAC_STATE_SIZE) {
        const uint8_t *cut = memcpy(text + PAC_STATE_SIZE - length, file, length); /* it ends with the page */
        if (pac_load(board, roms, PAC_ROMS_SIZE, cut, length) != PAC_V3)
            break;
        length++;
    }
    row_at("a state file that is cut", length, length == PAC_STATE_SIZE);
    memcpy(text, file, PAC_STATE_SIZE);
}

/* Whether the file is judged so with each of three bytes at a place; within the picture, first and last line apart, with one of them: the
 * next one in the next column and in the next line. */
static int is_judged_at(int at)
{
    static const uint8_t bytes[] = {0x00, 0xFF, '\n'};
    uint32_t code = at < VERSION ? PAC_V1 : at < FIRST_DIGEST ? PAC_V2 : PAC_V5;
    if (PICTURE + WIDTH <= at && at < LAST_DIGEST - WIDTH)
        return is_judged(at, bytes[(at / WIDTH + at) % 3], code);
    return is_judged(at, bytes[0], code) && is_judged(at, bytes[1], code) && is_judged(at, bytes[2], code);
}

/* A state file with no byte of 0 in the RAMs and the picture: cut at each length, with a byte more, and with each byte set. */
static void try_each_damage(const pac_board *good)
{
    static uint8_t file[PAC_STATE_SIZE + 1];
    *other = *good;
    memset(other->bytes + RAMS, 1, RAMS_SIZE), memset(other->bytes + PICTURE, 5, LAST_DIGEST - PICTURE);
    row("a filled state file", pac_save(other, roms, PAC_ROMS_SIZE, text, PAC_STATE_SIZE) == PAC_DONE);
    memcpy(file, text, PAC_STATE_SIZE);
    *board = *other = *good;
    row("a state file with a byte more", pac_load(board, roms, PAC_ROMS_SIZE, file, sizeof file) == PAC_V3);
    try_each_length(file);
    row("a board that stays when no file is taken", memcmp(board, other, sizeof *board) == 0);
    int at = 0;
    while (at < PAC_STATE_SIZE && is_judged_at(at))
        at++;
    row_at("a state file with a byte that is set", (size_t)at, at == PAC_STATE_SIZE);
}

/* Makes bytes that may be a state or not. The odd ones are a good state with up to eight bits flipped; the even ones are random, and every other
 * one of these has a state's first bytes, no digests and the numbers of a picture. */
static void make_state(int number, const pac_board *good)
{
    *other = *good;
    if (number % 2 == 1) {
        for (uint32_t left = 1 + random_number() % 8; left > 0; left--) {
            uint32_t end = random_number() % 2 ? PAC_BOARD_SIZE : PICTURE, at = random_number() % end;
            other->bytes[at] ^= (uint8_t)(1 << random_number() % 8);
        }
        return;
    }
    for (int at = 0; at < PAC_BOARD_SIZE; at++)
        other->bytes[at] = (uint8_t)random_number();
    if (number % 4 == 0) {
        memcpy(other, good, FIRST_DIGEST + 20);
        memset(other->bytes + LAST_DIGEST, 0, 20);
        for (int at = PICTURE; at < LAST_DIGEST; at++)
            other->bytes[at] &= 15;
    }
}

int main(int count, char **words)
{
    int is_each = count == 3 && strcmp(words[2], "each") == 0;
    FILE *file = count == 2 || is_each ? fopen(words[1], "rb") : NULL;
    static uint8_t read_roms[PAC_ROMS_SIZE + 1];
    if (file == NULL || fread(read_roms, 1, sizeof read_roms, file) != PAC_ROMS_SIZE || !pac_matches())
        fputs("usage: hostile ROMS [each], where ROMS has 25,120 bytes\n", stderr), exit(2);
    static pac_board good;
    roms = constant(read_roms, PAC_ROMS_SIZE);
    board = guarded(sizeof *board), other = guarded(sizeof *other), rgba = guarded(PAC_RGBA_SIZE), text = guarded(PAC_STATE_SIZE);
    samples = guarded(ROOM * sizeof *samples);
    int16_t *frame = guarded((PAC_FRAME_SAMPLES + 2) * sizeof *frame);
    int is_done = pac_init(&good, roms, PAC_ROMS_SIZE, PAC_SWITCHES) == PAC_DONE;
    for (int at = 0; at < FRAMES && is_done; at++)
        is_done = pac_exec(&good, roms, PAC_ROMS_SIZE, PAC_FRAME_MICROSECONDS, frame, PAC_FRAME_SAMPLES + 2, &ran) == PAC_DONE;
    row("a good state is made", is_done);
    try_lengths(&good), try_blocks(&good), try_room(&good), try_stops(&good), try_time(&good), try_files(&good);
    if (is_each)
        try_each_damage(&good);
    int accepted = 0;
    time_t told = time(NULL);
    for (int number = 0; number < STATES; number++) {
        make_state(number, &good);
        int failures = failed;
        accepted += is_state();
        passed += failures == failed;
        if (time(NULL) != told)
            told = time(NULL), fprintf(stderr, "hostile: %d of %d states\n", number, STATES);
    }
    printf("%d states, of which %d are taken\n%d passed, %d failed\n", STATES, accepted, passed, failed);
    return failed != 0;
}
