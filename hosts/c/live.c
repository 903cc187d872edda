/* Tries the calls of a live board: random lists of them, each made on a block of the same ROMs, too, with all answers and all bytes compared,
 * on several boards at once; single steps; stops at addresses, accesses and full buffers, by single steps of another live board; time that is
 * cut; and handles that aren't open.
 *
 *   live ROMS
 *
 * ROMS is made by hosts/roms.py; other lists have programs of random bytes. A live board ends where its page does, with a page after it that
 * nobody may touch. The last line is `N passed, M failed`; the exit status is 0 where M is 0.
 */
#define _DEFAULT_SOURCE
#include "../pacboard.h"
#include "accesses.h"

#include <pthread.h>
#include <stdio.h>
#include <stdlib.h>
#include <string.h>
#include <sys/mman.h>
#include <unistd.h>

#ifndef CALLS
#define CALLS 1300 /* of a list, at least: the gate makes fewer where each takes many times as long */
#endif

enum {
    THREADS = 4,
    LISTS = 5,      /* of a thread */
    LEAST = 5 * CALLS / 1300, /* answers of a kind */
    STEPPED = 200,  /* frames, the last of which is done by single steps */
    PROGRAM = 16384,
    FRAME = PAC_FRAME_MICROSECONDS,
    ROOM = PAC_FRAME_SAMPLES + 2,
    PEEKED = 64,
    ALIGNED = 16,
    UNTOUCHED = 0x55,
    STEP_CALLS = 8, /* calls of a microsecond, in which a step of a block comes */
    PLACES = 65536, /* bytes of a set */
    STOPS = 19000 * CALLS / 1300, /* at addresses of a set, at least */
    ACCESSES = 100 * CALLS / 1300, /* to watched addresses, of each kind, at least */
    CUTS = 60,      /* frames whose time is cut, of a list */
};

/* What a call writes: what it doesn't is as before. */
typedef struct written {
    int16_t samples[ROOM];
    pac_ran ran;
    pac_until until;
    uint8_t rgba[PAC_RGBA_SIZE], text[PAC_STATE_SIZE], bytes[PEEKED], lines[PAC_LINES_SIZE], palette[PAC_PALETTE_SIZE];
} written;

/* A live board and a block, on which the same calls are made, and another live board, which does so by single steps. */
typedef struct pair {
    pac_live live, stepped;
    pac_board block, given, kept;
    uint8_t roms[PAC_ROMS_SIZE], file[PAC_STATE_SIZE + 1], places[PLACES], watched[PLACES];
    written by_live, by_block;
    uint64_t random;
    long calls, answered[PAC_NULL], stopped[PAC_STOP_VECTOR + 1]; /* and how often each code was answered, and each stop was met */
    long ended[PAC_UNTIL_ACCESS + 1], met[3];                     /* and how often a call ended for each reason, and by which access */
    int16_t late; /* a sample that had no room, and what is due then */
    uint8_t due;
    int passed, failed;
} pair;

static const uint64_t MOST_ASKED = (uint64_t)1 << 50; /* microseconds of a board */
static const uint64_t LATEST = (uint64_t)1 << 52;     /* T-states of a board */

static uint8_t read_roms[PAC_ROMS_SIZE + 1];
static pair *pairs[THREADS];

/* Counts what was tried, and names what failed, by the number of the call. */
static void row(pair *it, const char *what, int is_so)
{
    it->passed += is_so != 0, it->failed += is_so == 0;
    if (!is_so)
        printf("FAILED: %s, call %ld\n", what, it->calls);
}

/* The next of a row of numbers that is the same each time, below a bound. */
static uint32_t below(pair *it, uint32_t bound)
{
    it->random ^= it->random << 13, it->random ^= it->random >> 7, it->random ^= it->random << 17;
    return (uint32_t)(it->random >> 16) % bound;
}

/* The product of two of them, the first one drawn first: C leaves open which factor is worked out before the other. */
static uint32_t product(pair *it, uint32_t first, uint32_t second)
{
    uint32_t factor = below(it, first);
    return factor * below(it, second);
}

/* Makes a byte any but 0. */
static void mark(pair *it, uint8_t *byte)
{
    *byte = (uint8_t)(1 + below(it, 255));
}

/* Changes a bit of a byte. */
static void toggle(pair *it, uint8_t *byte)
{
    *byte ^= (uint8_t)(1 << below(it, 8));
}

/* Bytes whose end is the end of a page, with a page after it that nobody may touch. */
static void *guarded(size_t size)
{
    size_t page = (size_t)sysconf(_SC_PAGESIZE), pages = (size + page - 1) / page * page;
    uint8_t *room = mmap(NULL, pages + page, PROT_READ | PROT_WRITE, MAP_PRIVATE | MAP_ANONYMOUS, -1, 0);
    if (room == MAP_FAILED || mprotect(room + pages, page, PROT_NONE) != 0)
        perror("live"), exit(3);
    return room + pages - size;
}

/* A number of so many bytes in a block, and written there, the low byte first. */
static uint64_t number(const pac_board *board, int at, int size)
{
    uint64_t found = 0;
    while (size-- > 0)
        found = found << 8 | board->bytes[at + size];
    return found;
}

static void put(pac_board *to, int at, uint64_t written)
{
    for (int byte = 0; byte < 8; byte++)
        to->bytes[at + byte] = (uint8_t)(written >> 8 * byte);
}

/* Whether the registers that are told are those of a block. */
static int are_of(const pac_registers *told, const pac_board *board)
{
    const uint8_t *bytes = board->bytes, flags = bytes[PAC_AT_FLAGS];
    int is_so = told->time == number(board, PAC_AT_TIME, 8) && told->steps == number(board, PAC_AT_STEPS, 8);
    is_so &= told->pc == number(board, PAC_AT_PC, 2) && told->sp == number(board, PAC_AT_SP, 2);
    is_so &= told->ix == number(board, PAC_AT_IX, 2) && told->iy == number(board, PAC_AT_IY, 2);
    is_so &= told->a == bytes[PAC_AT_A] && told->f == bytes[PAC_AT_F] && told->b == bytes[PAC_AT_B] && told->c == bytes[PAC_AT_C];
    is_so &= told->d == bytes[PAC_AT_D] && told->e == bytes[PAC_AT_E] && told->h == bytes[PAC_AT_H] && told->l == bytes[PAC_AT_L];
    is_so &= told->alternate_a == bytes[PAC_AT_ALTERNATE_A] && told->alternate_f == bytes[PAC_AT_ALTERNATE_F];
    is_so &= told->alternate_b == bytes[PAC_AT_ALTERNATE_B] && told->alternate_c == bytes[PAC_AT_ALTERNATE_C];
    is_so &= told->alternate_d == bytes[PAC_AT_ALTERNATE_D] && told->alternate_e == bytes[PAC_AT_ALTERNATE_E];
    is_so &= told->alternate_h == bytes[PAC_AT_ALTERNATE_H] && told->alternate_l == bytes[PAC_AT_ALTERNATE_L];
    is_so &= told->i == bytes[PAC_AT_I] && told->r == bytes[PAC_AT_R] && told->interrupt_mode == bytes[PAC_AT_INTERRUPT_MODE];
    is_so &= told->iff1 == (flags & PAC_IFF1) / PAC_IFF1 && told->iff2 == (flags & PAC_IFF2) / PAC_IFF2;
    is_so &= told->halted == (flags & PAC_HALTED) / PAC_HALTED && told->after_ei == (flags & PAC_AFTER_EI) / PAC_AFTER_EI;
    return is_so && told->zero == 0;
}

/* Whether the handle is as it was, and its board the block, by all bytes and by its registers. */
static void compare(pair *it, const char *what, uint32_t live_code, uint32_t block_code, const pac_live *handle)
{
    pac_registers told;
    int is_same = live_code == block_code && memcmp(&it->by_live, &it->by_block, sizeof it->by_live) == 0;
    is_same &= it->live.at == handle->at && it->live.size == handle->size && it->live.seal == handle->seal;
    memset(&it->given, UNTOUCHED, sizeof it->given), memset(&told, UNTOUCHED, sizeof told);
    is_same &= pac_live_give(&it->live, &it->given) == PAC_DONE && memcmp(&it->given, &it->block, sizeof it->block) == 0;
    is_same &= pac_live_registers(&it->live, &told) == PAC_DONE && are_of(&told, &it->block);
    it->answered[block_code < PAC_NULL ? block_code : 0]++;
    row(it, what, is_same);
}

/* Opens the handle, and makes the block at power-on. */
static void open_both(pair *it)
{
    uint8_t switches = (uint8_t)below(it, 256);
    uint32_t code = pac_live_open(&it->live, it->roms, PAC_ROMS_SIZE, switches);
    pac_live handle = it->live;
    compare(it, "pac_live_open", code, pac_init(&it->block, it->roms, PAC_ROMS_SIZE, switches), &handle);
}

/* Makes a step of the block by calls for a microsecond, as if the time until now was all that was asked, and then has what was asked as before. */
static uint32_t step_block(pair *it, size_t room)
{
    if (room < 2)
        return PAC_ROOM;
    uint64_t steps = number(&it->block, PAC_AT_STEPS, 8), asked = number(&it->block, PAC_AT_ASKED, 8);
    pac_board copy = it->block;
    pac_ran all = {0};
    put(&copy, PAC_AT_ASKED, number(&copy, PAC_AT_TIME, 8) * 125 / 384);
    for (int call = 0; call < STEP_CALLS && all.stop == PAC_GOES && number(&copy, PAC_AT_STEPS, 8) == steps; call++) {
        int16_t samples[2];
        pac_ran part = {0};
        if (pac_exec(&copy, it->roms, PAC_ROMS_SIZE, 1, samples, 2, &part) != PAC_DONE || all.samples + part.samples > room)
            return PAC_NULL;
        memcpy(it->by_block.samples + all.samples, samples, part.samples * sizeof *samples);
        part.ticks += all.ticks, part.samples += all.samples, part.pictures += all.pictures;
        all = part;
    }
    put(&copy, PAC_AT_ASKED, asked);
    it->block = copy, it->by_block.ran = all;
    return PAC_DONE;
}

/* A step, if the board's time is one that a block's calls may pass. */
static void step_both(pair *it)
{
    pac_live handle = it->live;
    size_t room = below(it, 8) != 0 ? 2 + below(it, 3) : below(it, 2);
    if (number(&it->block, PAC_AT_TIME, 8) < MOST_ASKED * 3) {
        uint32_t code = pac_live_step(&it->live, it->by_live.samples, room, &it->by_live.ran);
        compare(it, "pac_live_step", code, step_block(it, room), &handle);
        it->stopped[it->by_block.ran.stop]++;
    }
}

/* Whether an address is in the set of which so many bytes are handed over. */
static int is_place(const pair *it, size_t length, uint16_t address)
{
    return length != 0 && it->places[address] != 0;
}

/* Takes what is due from the block, if there is room for the sample; whether there was. */
static int take_due(pair *it, size_t room, pac_until *told)
{
    uint8_t due = it->block.bytes[PAC_AT_DUE];
    if ((due & 1) != 0 && room == 0)
        return 0;
    if ((due & 1) != 0)
        it->by_block.samples[told->samples++] = (int16_t)number(&it->block, PAC_AT_SAMPLE, 2);
    told->pictures += due >> 1;
    memset(it->block.bytes + PAC_AT_DUE, 0, PAC_AT_PICTURE - PAC_AT_DUE);
    return 1;
}

/* Whether a cell of an address keeps what is written there: RAM, of which 4800H to 4BFFH has none. */
static int is_kept(uint16_t address)
{
    uint16_t place = address & 0x5FFF;
    return place >= 0x4000 && place < 0x5000 && (place & 0xFC00) != 0x4800;
}

/* What the next step may do, by the registers and the bytes before it: its instruction's accesses or an acceptance's, with the bytes there. */
typedef struct next_step {
    pac_registers before;
    uint8_t code[4], bytes[2], pushed[2];
    accesses made;
} next_step;

static void look_ahead(pair *it, next_step *next)
{
    pac_live *live = &it->stepped;
    pac_live_registers(live, &next->before), pac_live_peek(live, next->before.pc, next->code, sizeof next->code);
    next->made = accesses_of(&next->before, next->code);
    for (int at = 0; at < next->made.writes; at++)
        pac_live_peek(live, next->made.written[at], next->bytes + at, 1);
    for (int at = 0; at < 2; at++)
        pac_live_peek(live, (uint16_t)(next->before.sp - 1 - at), next->pushed + at, 1);
}

/* What it did at watched addresses: the first write, or else the first read. */
static void tell_access(pair *it, next_step *next, pac_until *told)
{
    pac_registers now;
    pac_live_registers(&it->stepped, &now);
    if (next->before.iff1 && !now.iff1 && next->code[0] != 0xF3) { /* (only DI and an acceptance clear it) */
        pac_live_give(&it->stepped, &it->block);
        next->made = acceptance_accesses(&next->before, it->block.bytes[PAC_AT_VECTOR]);
        memcpy(next->bytes, next->pushed, sizeof next->bytes);
    } else if (next->before.halted)
        next->made = (accesses){0};
    for (int at = 0; at < next->made.writes && told->access == 0; at++)
        if (it->watched[next->made.written[at]] % 2 == 1) {
            told->access = 1, told->address = next->made.written[at], told->before = next->bytes[at];
            pac_live_peek(&it->stepped, told->address, &told->after, 1);
            told->after = is_kept(told->address) ? told->after : it->by_live.until.after; /* what nothing keeps is taken as it is told */
        }
    for (int at = 0; at < next->made.reads && told->access == 0; at++)
        if (it->watched[next->made.read[at]] / 2 % 2 == 1) {
            told->access = 2, told->address = next->made.read[at];
            pac_live_peek(&it->stepped, told->address, &told->before, 1);
            told->after = told->before;
        }
}

/* One step of the other live board. Where there is no room for its sample, what it gave is due in the block then. */
static void step_until(pair *it, size_t watched, size_t room, pac_until *told)
{
    int16_t given[2];
    pac_ran part;
    next_step next;
    if (watched != 0)
        look_ahead(it, &next);
    if (pac_live_step(&it->stepped, given, 2, &part) != PAC_DONE || part.samples > 1)
        told->why = PAC_NULL;
    else if (part.stop != PAC_GOES)
        told->why = PAC_UNTIL_STOP, told->stop = part.stop, told->vector = part.vector, memcpy(told->bytes, part.bytes, sizeof part.bytes);
    else if (part.samples == 1 && told->samples == room)
        told->why = PAC_UNTIL_FULL, it->late = given[0], it->due = (uint8_t)(1 | part.pictures << 1);
    else {
        if (part.samples == 1)
            it->by_block.samples[told->samples++] = given[0];
        told->pictures += part.pictures;
    }
    if (watched != 0 && told->why != PAC_UNTIL_STOP)
        tell_access(it, &next, told);
    if (told->why == 0 && told->access != 0)
        told->why = PAC_UNTIL_ACCESS;
}

/* Goes on with the block: what pac_live_until has to do, by single steps of the other live board. */
static uint32_t until_block(pair *it, uint32_t ticks, size_t length, size_t watched, size_t room)
{
    uint64_t begun = number(&it->block, PAC_AT_TIME, 8), limit = begun + ticks;
    int was_due = it->block.bytes[PAC_AT_DUE] != 0;
    pac_until told = {0};
    pac_registers now = {0};
    if ((length != 0 && length != PLACES) || (watched != 0 && watched != PLACES))
        return PAC_LENGTH;
    if (limit > LATEST)
        return PAC_TIME;
    if (!take_due(it, room, &told))
        told.why = PAC_UNTIL_FULL, told.pc = (uint16_t)number(&it->block, PAC_AT_PC, 2);
    else if (pac_live_put(&it->stepped, it->roms, PAC_ROMS_SIZE, &it->block) == PAC_DONE) {
        pac_live_registers(&it->stepped, &now);
        told.why = was_due && is_place(it, length, now.pc) ? PAC_UNTIL_PLACE : 0;
        while (told.why == 0 && now.time < limit) {
            step_until(it, watched, room, &told);
            pac_live_registers(&it->stepped, &now);
            if (told.why == 0 && is_place(it, length, now.pc))
                told.why = PAC_UNTIL_PLACE;
        }
        pac_live_give(&it->stepped, &it->block);
        if (told.why == PAC_UNTIL_FULL)
            it->block.bytes[PAC_AT_DUE] = it->due, it->block.bytes[PAC_AT_SAMPLE] = (uint8_t)it->late,
            it->block.bytes[PAC_AT_SAMPLE + 1] = (uint8_t)((uint16_t)it->late >> 8);
        told.why = told.why == 0 ? PAC_UNTIL_TIME : told.why;
        told.ticks = now.time - begun, told.pc = now.pc;
    }
    it->by_block.until = told;
    return PAC_DONE;
}

/* Lays a set: of no address, of all, of the last, of some anywhere, or of some at which the board will be. */
static void lay_places(pair *it)
{
    int16_t given[2];
    pac_ran part;
    pac_registers now = {0};
    uint32_t kind = below(it, 12), left = 1 + below(it, 4);
    memset(it->places, kind == 0 ? 1 + (int)below(it, 255) : 0, PLACES);
    it->places[PLACES - 1] |= kind == 1;
    while (kind == 2 && left-- > 0)
        mark(it, &it->places[below(it, PLACES)]);
    if (kind > 3 && pac_live_put(&it->stepped, it->roms, PAC_ROMS_SIZE, &it->block) == PAC_DONE)
        while (left-- > 0) {
            for (uint32_t step = below(it, 40); step > 0 && pac_live_step(&it->stepped, given, 2, &part) == PAC_DONE; step--)
                continue;
            if (pac_live_registers(&it->stepped, &now) == PAC_DONE)
                mark(it, &it->places[now.pc]);
        }
}

/* Lays a map of watched addresses: ports, work RAM, the whole, some anywhere, or none. */
static void lay_watched(pair *it)
{
    static const uint16_t begins[] = {0x5000, 0x4C00, 0x4FF0, 0xC000, 0}, ends[] = {0x5100, 0x4E00, 0x5080, 0xC400, 0xFFFF};
    uint32_t kind = below(it, 8), left = 1 + below(it, 300);
    memset(it->watched, 0, PLACES);
    for (uint32_t at = kind < 5 ? begins[kind] : 1; at <= (kind < 5 ? ends[kind] : 0u); at++)
        it->watched[at] = (uint8_t)below(it, 8);
    while (kind > 5 && left-- > 0)
        mark(it, &it->watched[kind == 6 ? below(it, PLACES) : 0x4000 + below(it, 0x1000)]);
}

/* Goes on by some calls one after another, mostly with room enough and a set of the right length. */
static void until_both(pair *it)
{
    pac_live handle = it->live;
    lay_places(it), lay_watched(it);
    for (uint32_t left = 1 + below(it, 16); left > 0 && number(&it->block, PAC_AT_TIME, 8) < MOST_ASKED * 3; left--) {
        size_t room = below(it, 4) != 0 ? ROOM : below(it, 6), length = below(it, 16) != 0 ? PLACES : product(it, 2, PLACES + 2);
        size_t watched = below(it, 2) == 0 ? PLACES : below(it, 40) != 0 ? 0 : below(it, PLACES + 2);
        uint32_t ticks = below(it, 12) != 0 ? below(it, 1500) : product(it, 3, watched != 0 ? 6000 : 60000);
        ticks = below(it, 200) != 0 || watched != 0 ? ticks : UINT32_MAX;
        pac_until *told = &it->by_live.until;
        uint32_t code = pac_live_until(&it->live, ticks, it->places, length, it->watched, watched, it->by_live.samples, room, told);
        compare(it, "pac_live_until", code, until_block(it, ticks, length, watched, room), &handle);
        it->ended[code == PAC_DONE ? told->why % (PAC_UNTIL_ACCESS + 1) : 0]++, it->met[code == PAC_DONE ? told->access % 3 : 0]++;
    }
}

/* A run, mostly a short one with room enough. */
static void run_both(pair *it)
{
    pac_live handle = it->live;
    size_t room = below(it, 12) != 0 ? ROOM : below(it, 8);
    uint32_t microseconds = below(it, 20) != 0 ? below(it, 300) : below(it, 8) != 0 ? below(it, FRAME + 1) : UINT32_MAX;
    uint32_t code = pac_live_exec(&it->live, microseconds, it->by_live.samples, room, &it->by_live.ran);
    uint32_t wanted = pac_exec(&it->block, it->roms, PAC_ROMS_SIZE, microseconds, it->by_block.samples, room, &it->by_block.ran);
    compare(it, "pac_live_exec", code, wanted, &handle);
    it->stopped[it->by_block.ran.stop]++;
    if (wanted == PAC_TIME && below(it, 4) == 0)
        open_both(it);
}

/* Changes a block: bits of it are flipped, all registers are others, its time is nearly over, or a vector is to be read. */
static void change(pair *it, pac_board *board)
{
    uint64_t asked = MOST_ASKED - below(it, 1000);
    switch (below(it, 8)) {
    case 0:
    case 1:
        for (uint32_t left = 1 + below(it, 8); left > 0; left--)
            toggle(it, &board->bytes[below(it, below(it, 2) ? PAC_BOARD_SIZE : PAC_AT_PICTURE)]);
        break;
    case 2:
    case 3:
        for (int at = PAC_AT_A; at < PAC_AT_TIME; at++)
            board->bytes[at] = (uint8_t)below(it, at == PAC_AT_FLAGS ? 16 : at == PAC_AT_INTERRUPT_MODE ? 3 : 256);
        break;
    case 4:
        if (below(it, 4) == 0)
            put(board, PAC_AT_ASKED, asked), put(board, PAC_AT_TIME, asked * 384 / 125);
        break;
    case 5:
        board->bytes[PAC_AT_FLAGS] = PAC_IFF1, board->bytes[PAC_AT_INTERRUPT_MODE] = 0;
        board->bytes[PAC_AT_VECTOR] = (uint8_t)below(it, 256), board->bytes[PAC_AT_REQUEST] = 1, board->bytes[PAC_AT_LATCH] |= 1;
    }
}

/* A block that is put, the board's own or one that was kept, as it is or changed: with other ROMs, and with ROMs of another length, too. */
static void put_both(pair *it)
{
    pac_live handle = it->live;
    pac_board board = below(it, 4) == 0 ? it->kept : it->block;
    size_t length = below(it, 8) != 0 ? PAC_ROMS_SIZE : PAC_ROMS_SIZE - 1 - below(it, 2) * (PAC_ROMS_SIZE - 1);
    uint8_t roms[PAC_ROMS_SIZE];
    memcpy(roms, it->roms, sizeof roms);
    change(it, &board);
    if (below(it, 4) == 0)
        toggle(it, &roms[below(it, PAC_ROMS_SIZE)]);
    pac_board judged = board;
    uint32_t wanted = length != PAC_ROMS_SIZE ? PAC_LENGTH : pac_hold(&judged, 0, 0);
    uint32_t code = pac_live_put(&it->live, roms, length, &board);
    if (wanted == PAC_DONE)
        it->block = board, memcpy(it->roms, roms, sizeof roms);
    compare(it, "pac_live_put", code, wanted, &handle);
}

/* A picture in some order, mostly of the right length. */
static void draw_both(pair *it)
{
    pac_live handle = it->live;
    size_t length = below(it, 4) != 0 ? PAC_RGBA_SIZE : below(it, PAC_RGBA_SIZE);
    uint8_t order = (uint8_t)product(it, 3, 256), *rgba = it->by_block.rgba;
    uint32_t code = pac_live_draw(&it->live, order, it->by_live.rgba, length), wanted = pac_draw(&it->block, it->roms, PAC_ROMS_SIZE, rgba, length);
    for (size_t at = 0; wanted == PAC_DONE && order != PAC_RGBA && at < PAC_RGBA_SIZE; at += 4) {
        uint8_t red = rgba[at];
        rgba[at] = rgba[at + 2], rgba[at + 2] = red;
    }
    compare(it, "pac_live_draw", code, wanted, &handle);
}

/* The block's colour numbers, and its palette: what pac_draw makes of a line that begins with all numbers. */
static uint32_t lines_block(pair *it, size_t length, size_t palette_length)
{
    static _Thread_local uint8_t rgba[PAC_RGBA_SIZE];
    pac_board copy = it->block;
    if (length != PAC_LINES_SIZE || palette_length != PAC_PALETTE_SIZE)
        return PAC_LENGTH;
    memcpy(it->by_block.lines, it->block.bytes + PAC_AT_PICTURE, PAC_LINES_SIZE);
    for (int number = 0; number < PAC_PALETTE_SIZE / 4; number++)
        copy.bytes[PAC_AT_PICTURE + number] = (uint8_t)number;
    if (pac_draw(&copy, it->roms, PAC_ROMS_SIZE, rgba, sizeof rgba) == PAC_DONE)
        memcpy(it->by_block.palette, rgba, PAC_PALETTE_SIZE);
    return PAC_DONE;
}

/* A picture by its colour numbers, mostly with the right lengths. */
static void lines_both(pair *it)
{
    pac_live handle = it->live;
    size_t length = below(it, 6) != 0 ? PAC_LINES_SIZE : below(it, PAC_LINES_SIZE);
    size_t palette_length = below(it, 6) != 0 ? PAC_PALETTE_SIZE : below(it, PAC_PALETTE_SIZE);
    uint32_t code = pac_live_lines(&it->live, it->by_live.lines, length, it->by_live.palette, palette_length);
    compare(it, "pac_live_lines", code, lines_block(it, length, palette_length), &handle);
}

static void save_both(pair *it)
{
    pac_live handle = it->live;
    size_t length = below(it, 4) != 0 ? PAC_STATE_SIZE : below(it, PAC_STATE_SIZE);
    uint32_t code = pac_live_save(&it->live, it->by_live.text, length);
    compare(it, "pac_live_save", code, pac_save(&it->block, it->roms, PAC_ROMS_SIZE, it->by_block.text, length), &handle);
    if (code == PAC_DONE)
        memcpy(it->file, it->by_block.text, PAC_STATE_SIZE);
}

/* A state file: the last that was saved, which may be of other ROMs, as it is, of another length or with a bit flipped. */
static void load_both(pair *it)
{
    pac_live handle = it->live;
    size_t at = below(it, below(it, 2) ? PAC_STATE_SIZE : PAC_AT_A), length = below(it, 6) != 0 ? PAC_STATE_SIZE : below(it, PAC_STATE_SIZE + 2);
    uint8_t flipped = (uint8_t)(below(it, 3) != 0 ? 0 : 1 << below(it, 8));
    it->file[at] ^= flipped;
    uint32_t code = pac_live_load(&it->live, it->file, length);
    compare(it, "pac_live_load", code, pac_load(&it->block, it->roms, PAC_ROMS_SIZE, it->file, length), &handle);
    it->file[at] ^= flipped;
}

static void peek_both(pair *it)
{
    pac_live handle = it->live;
    uint16_t address = (uint16_t)below(it, 0x10000);
    size_t length = below(it, PEEKED + 1);
    uint32_t code = pac_live_peek(&it->live, address, it->by_live.bytes, length);
    compare(it, "pac_live_peek", code, pac_peek(&it->block, it->roms, PAC_ROMS_SIZE, address, it->by_block.bytes, length), &handle);
}

/* Makes one call. */
static void call_both(pair *it)
{
    pac_live handle = it->live;
    uint16_t set = (uint16_t)below(it, 0x10000), clear = (uint16_t)below(it, 0x10000);
    it->calls++;
    switch (below(it, 31)) {
    case 0:
        compare(it, "pac_live_reset", pac_live_reset(&it->live), pac_reset(&it->block), &handle);
        break;
    case 1:
    case 2:
        compare(it, "pac_live_hold", pac_live_hold(&it->live, set, clear), pac_hold(&it->block, set, clear), &handle);
        break;
    case 3:
        if (number(&it->block, PAC_AT_ASKED, 8) < MOST_ASKED / 2)
            it->kept = it->block;
        break;
    case 4:
    case 5:
        put_both(it);
        break;
    case 6:
        draw_both(it), lines_both(it);
        break;
    case 7:
        save_both(it);
        break;
    case 8:
        load_both(it);
        break;
    case 9:
    case 10:
        peek_both(it);
        break;
    case 11:
    case 12:
    case 13:
        step_both(it);
        break;
    case 14:
        if (below(it, 8) == 0)
            open_both(it);
        break;
    case 15:
    case 16:
    case 17:
    case 18:
    case 19:
    case 20:
    case 21:
        until_both(it);
        break;
    default:
        run_both(it);
    }
}

/* Lays the ROMs of a list: those of the file, or other tables with a program of random bytes, half of them without the bytes of a prefix, which
 * mostly begin what is no instruction. */
static void lay_roms(pair *it, int list)
{
    memcpy(it->roms, read_roms, PAC_ROMS_SIZE);
    for (int at = 0; at < PROGRAM && list % 5 > 1; at++) {
        uint8_t byte = (uint8_t)below(it, 256);
        it->roms[at] = list % 5 > 2 && (byte == 0xDD || byte == 0xED || byte == 0xFD) ? 0 : byte;
    }
}

/* A part of a frame, which ends before the frame does: some T-states, a step, or some microseconds of those that are left. */
static uint32_t part_of(pair *it, int16_t *samples, size_t room, uint32_t *left, uint32_t *given)
{
    pac_ran part = {0};
    pac_until told = {0};
    uint32_t asked = below(it, *left / 8 + 1), code = PAC_DONE;
    switch (below(it, 4)) {
    case 0:
        code = pac_live_step(&it->live, samples, room, &part);
        break;
    case 1:
        code = pac_live_exec(&it->live, asked, samples, room, &part);
        *left -= asked;
        break;
    default: {
        uint32_t ticks = below(it, 2500);
        size_t length = below(it, 2) * PLACES, watched = below(it, 2) * PLACES;
        size_t left_room = below(it, 2) ? room : below(it, 40);
        code = pac_live_until(&it->live, ticks, it->places, length, it->watched, watched, samples, left_room, &told);
    }
    }
    *given = part.samples + told.samples;
    return code;
}

/* Frames whose time is cut anyhow, with sets and full buffers: the samples are those of one call for a frame, and so is the board. */
static void try_cuts(pair *it)
{
    pac_registers now = {0};
    pac_ran part;
    open_both(it);
    pac_live handle = it->live;
    for (int frame = 1; frame <= CUTS; frame++) {
        uint32_t left = FRAME, given = 0, more = 0, code = PAC_DONE;
        lay_places(it), lay_watched(it);
        while (code == PAC_DONE && now.time + 3000 < (uint64_t)frame * FRAME * 384 / 125 && below(it, 80) != 0) {
            code = part_of(it, it->by_live.samples + given, ROOM - given, &left, &more);
            given += code == PAC_DONE ? more : 0;
            pac_live_registers(&it->live, &now);
        }
        code = code == PAC_DONE ? pac_live_exec(&it->live, left, it->by_live.samples + given, ROOM - given, &part) : code;
        given += part.samples;
        uint32_t wanted = pac_exec(&it->block, it->roms, PAC_ROMS_SIZE, FRAME, it->by_block.samples, ROOM, &it->by_block.ran);
        row(it, "as many samples", given == it->by_block.ran.samples);
        it->by_live.ran = it->by_block.ran;
        compare(it, "a frame whose time is cut", code, wanted, &handle);
    }
}

/* Makes the lists of a thread. */
static void *make_lists(void *handed)
{
    pair *it = handed;
    for (int list = 0; list < LISTS; list++) {
        lay_roms(it, list);
        open_both(it);
        row(it, "another live board", pac_live_open(&it->stepped, it->roms, PAC_ROMS_SIZE, 0) == PAC_DONE);
        it->kept = it->block;
        for (int call = 0; call < CALLS; call++)
            call_both(it);
        try_cuts(it);
    }
    return handed;
}

/* One frame by single steps, after others: the same samples, blanks, T-states and board as one call. */
static void try_frame(pair *it)
{
    size_t samples = 0;
    pac_ran all = {0}, part;
    pac_registers told = {0};
    int is_done = 1;
    memcpy(it->roms, read_roms, PAC_ROMS_SIZE);
    open_both(it);
    for (int frame = 1; frame < STEPPED; frame++) {
        is_done &= pac_live_exec(&it->live, FRAME, it->by_live.samples, ROOM, &part) == PAC_DONE;
        is_done &= pac_exec(&it->block, it->roms, PAC_ROMS_SIZE, FRAME, it->by_block.samples, ROOM, &part) == PAC_DONE;
    }
    while (is_done && told.time < (uint64_t)STEPPED * FRAME * 384 / 125 && samples + 2 <= ROOM) {
        is_done &= pac_live_step(&it->live, it->by_live.samples + samples, ROOM - samples, &part) == PAC_DONE;
        is_done &= pac_live_registers(&it->live, &told) == PAC_DONE;
        all.ticks += part.ticks, all.pictures += part.pictures, samples += part.samples;
    }
    all.samples = (uint32_t)samples, it->by_live.ran = all;
    row(it, "steps of a frame", is_done);
    row(it, "a run after them", pac_live_exec(&it->live, FRAME, it->by_live.samples, ROOM, &part) == PAC_DONE && part.ticks == 0);
    pac_live handle = it->live;
    uint32_t code = pac_exec(&it->block, it->roms, PAC_ROMS_SIZE, FRAME, it->by_block.samples, ROOM, &it->by_block.ran);
    compare(it, "a frame by single steps", PAC_DONE, code, &handle);
}

/* A handle that isn't open: each call but pac_live_open says so, and changes nothing. */
static void try_closed(pair *it, const char *what, pac_live live)
{
    static written before;
    pac_live handle = live;
    pac_board board = it->block, other = it->block;
    pac_registers told, untold;
    memset(&told, UNTOUCHED, sizeof told), memset(&untold, UNTOUCHED, sizeof untold);
    before = it->by_live;
    int is_so = pac_live_close(&live) == PAC_CLOSED && pac_live_reset(&live) == PAC_CLOSED && pac_live_hold(&live, 1, 2) == PAC_CLOSED;
    is_so &= pac_live_put(&live, it->roms, PAC_ROMS_SIZE, &board) == PAC_CLOSED && pac_live_put(&live, it->roms, 1, &board) == PAC_CLOSED;
    is_so &= pac_live_give(&live, &board) == PAC_CLOSED && pac_live_registers(&live, &told) == PAC_CLOSED;
    is_so &= pac_live_exec(&live, FRAME, it->by_live.samples, ROOM, &it->by_live.ran) == PAC_CLOSED;
    is_so &= pac_live_exec(&live, FRAME, it->by_live.samples, 0, &it->by_live.ran) == PAC_CLOSED;
    is_so &= pac_live_step(&live, it->by_live.samples, ROOM, &it->by_live.ran) == PAC_CLOSED;
    is_so &= pac_live_until(&live, 1, it->places, PLACES, it->watched, 0, it->by_live.samples, ROOM, &it->by_live.until) == PAC_CLOSED;
    is_so &= pac_live_until(&live, UINT32_MAX, it->places, 1, it->watched, 1, it->by_live.samples, 0, &it->by_live.until) == PAC_CLOSED;
    is_so &= pac_live_peek(&live, 0, it->by_live.bytes, PEEKED) == PAC_CLOSED;
    is_so &= pac_live_draw(&live, PAC_RGBA, it->by_live.rgba, PAC_RGBA_SIZE) == PAC_CLOSED && pac_live_draw(&live, PAC_BGRA, it->by_live.rgba, 1) == PAC_CLOSED;
    is_so &= pac_live_lines(&live, it->by_live.lines, PAC_LINES_SIZE, it->by_live.palette, PAC_PALETTE_SIZE) == PAC_CLOSED;
    is_so &= pac_live_save(&live, it->by_live.text, PAC_STATE_SIZE) == PAC_CLOSED;
    is_so &= pac_live_load(&live, it->file, PAC_STATE_SIZE) == PAC_CLOSED;
    row(it, what, is_so);
    is_so = memcmp(&before, &it->by_live, sizeof before) == 0 && memcmp(&board, &other, sizeof board) == 0;
    is_so &= memcmp(&told, &untold, sizeof told) == 0 && memcmp(&live, &handle, sizeof live) == 0;
    row(it, "and what it leaves", is_so);
}

/* Handles that aren't open, and that can't be opened; and one that is closed and opened again. */
static void try_handles(pair *it)
{
    size_t size = pac_live_size();
    uint8_t *memory = it->live.at;
    pac_live zero = {0}, foreign = {memory, size, ~it->live.seal}, small = {memory, size - 1, 0}, open = it->live;
    try_closed(it, "a handle of zeros", zero);
    try_closed(it, "a handle with another seal", foreign);
    for (int bit = 0; bit < 64; bit++)
        foreign.seal = it->live.seal ^ (uint64_t)1 << bit, row(it, "a seal but for a bit", pac_live_reset(&foreign) == PAC_CLOSED);
    row(it, "a handle of zeros isn't opened", pac_live_open(&zero, it->roms, PAC_ROMS_SIZE, 0) == PAC_LENGTH && zero.seal == 0);
    row(it, "an open handle, ROMs of another length", pac_live_open(&it->live, it->roms, PAC_ROMS_SIZE - 1, 0) == PAC_LENGTH);
    compare(it, "and its board", PAC_DONE, PAC_DONE, &open);
    row(it, "a handle that is closed", pac_live_close(&it->live) == PAC_DONE && it->live.at == memory && it->live.size == size);
    try_closed(it, "a handle that was closed", it->live);
    memset(memory, UNTOUCHED, size);
    row(it, "too little memory", pac_live_open(&small, it->roms, PAC_ROMS_SIZE, 0) == PAC_LENGTH && small.seal == 0);
    row(it, "ROMs of another length", pac_live_open(&it->live, it->roms, PAC_ROMS_SIZE + 1, 0) == PAC_LENGTH);
    size_t at = 0;
    while (at < size && memory[at] == UNTOUCHED)
        at++;
    row(it, "memory that isn't written then", at == size);
    open_both(it);
    it->live.seal = 7;
    open_both(it);
    row(it, "a handle that is closed again", pac_live_close(&it->live) == PAC_DONE && pac_live_close(&it->live) == PAC_CLOSED);
}

/* The calls that look for null. */
static void try_null(pair *it)
{
    int is_so = pac_live_open_checked(NULL, it->roms, PAC_ROMS_SIZE, 0) == PAC_NULL && pac_live_close_checked(NULL) == PAC_NULL;
    is_so &= pac_live_open_checked(&it->live, NULL, PAC_ROMS_SIZE, 0) == PAC_NULL && pac_live_reset_checked(NULL) == PAC_NULL;
    is_so &= pac_live_put_checked(&it->live, it->roms, PAC_ROMS_SIZE, NULL) == PAC_NULL && pac_live_give_checked(&it->live, NULL) == PAC_NULL;
    is_so &= pac_live_hold_checked(NULL, 0, 0) == PAC_NULL && pac_live_registers_checked(&it->live, NULL) == PAC_NULL;
    is_so &= pac_live_exec_checked(&it->live, 1, it->by_live.samples, ROOM, NULL) == PAC_NULL;
    is_so &= pac_live_step_checked(&it->live, NULL, ROOM, &it->by_live.ran) == PAC_NULL;
    is_so &= pac_live_until_checked(&it->live, 1, NULL, 0, it->watched, 0, it->by_live.samples, ROOM, &it->by_live.until) == PAC_NULL;
    is_so &= pac_live_until_checked(&it->live, 1, it->places, 0, NULL, 0, it->by_live.samples, ROOM, &it->by_live.until) == PAC_NULL;
    is_so &= pac_live_until_checked(&it->live, 1, it->places, 0, it->watched, 0, it->by_live.samples, ROOM, NULL) == PAC_NULL;
    is_so &= pac_live_peek_checked(&it->live, 0, NULL, 0) == PAC_NULL && pac_live_draw_checked(&it->live, PAC_BGRA, NULL, PAC_RGBA_SIZE) == PAC_NULL;
    is_so &= pac_live_lines_checked(&it->live, it->by_live.lines, PAC_LINES_SIZE, NULL, PAC_PALETTE_SIZE) == PAC_NULL;
    is_so &= pac_live_save_checked(&it->live, NULL, 0) == PAC_NULL && pac_live_load_checked(&it->live, NULL, 0) == PAC_NULL;
    row(it, "a pointer that is null", is_so);
    row(it, "no pointer that is null", pac_live_hold_checked(&it->live, 0, 0) == PAC_DONE);
}

/* The lists had something to say: each code that they can meet was answered, and each stop was met. */
static void try_answers(void)
{
    static const int codes[] = {PAC_DONE, PAC_LENGTH, PAC_STATE, PAC_TIME, PAC_ROOM, PAC_V1, PAC_V2, PAC_V3, PAC_V5, PAC_V6};
    for (size_t at = 0; at < sizeof codes / sizeof *codes; at++) {
        long answered = 0;
        for (int thread = 0; thread < THREADS; thread++)
            answered += pairs[thread]->answered[codes[at]];
        row(pairs[0], "a code that is answered", answered >= LEAST);
    }
    for (int stop = PAC_STOP_OPCODE; stop <= PAC_STOP_VECTOR; stop++) {
        long stopped = 0;
        for (int thread = 0; thread < THREADS; thread++)
            stopped += pairs[thread]->stopped[stop];
        row(pairs[0], "a stop that is met", stopped >= LEAST);
    }
    for (int access = 1; access <= 2; access++) {
        long met = 0;
        for (int thread = 0; thread < THREADS; thread++)
            met += pairs[thread]->met[access];
        row(pairs[0], "an access that is met", met >= ACCESSES);
    }
    for (int why = PAC_UNTIL_TIME; why <= PAC_UNTIL_ACCESS; why++) {
        long ended = 0;
        for (int thread = 0; thread < THREADS; thread++)
            ended += pairs[thread]->ended[why];
        row(pairs[0], "a reason to end", ended >= (why == PAC_UNTIL_PLACE ? STOPS : LEAST));
        printf("%ld calls that ended for reason %d\n", ended, why);
    }
}

/* Makes a pair whose handle is closed, with numbers of its own. */
static pair *made(int thread)
{
    size_t size = pac_live_size();
    pair *it = guarded((sizeof *it + ALIGNED - 1) / ALIGNED * ALIGNED);
    it->live.at = guarded((size + ALIGNED - 1) / ALIGNED * ALIGNED), it->live.size = size;
    it->stepped.at = guarded((size + ALIGNED - 1) / ALIGNED * ALIGNED), it->stepped.size = size;
    it->random = 88172645463325252u + (uint64_t)thread;
    return it;
}

int main(int count, char **words)
{
    FILE *file = count == 2 ? fopen(words[1], "rb") : NULL;
    pthread_t threads[THREADS];
    long calls = 0;
    int passed = 0, failed = 0;
    if (file == NULL || fread(read_roms, 1, sizeof read_roms, file) != PAC_ROMS_SIZE || !pac_matches())
        fputs("usage: live ROMS, where ROMS has 25,120 bytes\n", stderr), exit(2);
    for (int thread = 0; thread < THREADS; thread++) {
        pairs[thread] = made(thread);
        if (pthread_create(&threads[thread], NULL, make_lists, pairs[thread]) != 0)
            perror("live"), exit(3);
    }
    for (int thread = 0; thread < THREADS; thread++)
        pthread_join(threads[thread], NULL);
    try_frame(pairs[0]), try_null(pairs[0]), try_handles(pairs[0]);
    try_answers();
    for (int thread = 0; thread < THREADS; thread++)
        calls += pairs[thread]->calls, passed += pairs[thread]->passed, failed += pairs[thread]->failed;
    printf("%ld calls in %d threads\n%d passed, %d failed\n", calls, THREADS, passed, failed);
    return failed != 0;
}
