/* Reads bytes as a program and a list of calls, makes them on a board, and ends with a trap where a law of the library doesn't hold: what
 * tools/check/fuzz has libFuzzer look for.
 *
 * The first byte is the length of the program that follows, and stands at 0 of its ROM; the next is the byte of the DIP switches. Then each three
 * bytes are a call, and a number for it, the low byte first. The laws:
 *
 * - cut time is whole time: two calls for a part each give the samples of one call for both, and the same block;
 * - and so it is on a live board, by whatever calls of pac_live_until and pac_live_step it is cut: these end at an address of their set, past a
 *   watched access, with their time over, at a stop, or with a full buffer;
 * - a board that is saved and loaded is the same board, but for what is held, which a file doesn't keep;
 * - a copy goes on as the board does, and draws the same picture;
 * - a call that is refused changes neither the block nor a buffer;
 * - a board that has stopped meets its stop again at once, and goes on once the stop is gone, with no more room than the time itself wants.
 */
#include "../pacboard.h"

#include <stdlib.h>
#include <string.h>

enum { MOST = 20000, ROOM = MOST * 12 / 125 + 2, CALLS = 24, CUTS = 64, LIVE = 1 << 18, LONGEST = 23 };

static uint8_t roms[PAC_ROMS_SIZE];

/* Ends where a law doesn't hold. */
static void holds(int is_so)
{
    if (!is_so)
        __builtin_trap();
}

/* Whether two boards are the same. */
static int same(const pac_board *one, const pac_board *other)
{
    return memcmp(one, other, sizeof *one) == 0;
}

/* Has a board that has stopped meet its stop again; and leaves it, by other ROMs and by a reset. */
static void leave(const pac_board *board, const pac_ran *ran, uint32_t microseconds)
{
    static const uint8_t others[PAC_ROMS_SIZE]; /* (NOPs) */
    static int16_t samples[ROOM];
    size_t room = microseconds * 12 / 125 + 2;
    uint64_t ticks = (uint64_t)microseconds * 384 / 125;
    pac_board copy = *board;
    pac_ran again = {0};
    uint32_t code = pac_exec(&copy, roms, sizeof roms, microseconds, samples, room, &again);
    if (code == PAC_TIME)
        return; /* (35 years are over) */
    holds(code == PAC_DONE && same(board, &copy) && again.ticks == 0 && again.samples == 0 && again.pictures == 0);
    holds(again.stop == ran->stop && again.pc == ran->pc && again.vector == ran->vector && memcmp(again.bytes, ran->bytes, 4) == 0);
    holds(pac_exec(&copy, others, sizeof others, microseconds, samples, room, &again) == PAC_DONE);
    holds(again.stop != PAC_GOES || (again.ticks > ticks && again.ticks < ticks + 28)); /* (an interrupt may stop it again) */
    copy = *board;
    holds(pac_reset(&copy) == PAC_DONE && pac_exec(&copy, roms, sizeof roms, microseconds, samples, room, &again) == PAC_DONE);
    holds(again.stop != PAC_GOES || (again.ticks > ticks && again.ticks < ticks + 28));
}

/* Lets a board and a copy of it run for as long, the copy in two parts; the samples and the blocks have to be the same. */
static void run(pac_board *board, uint32_t microseconds)
{
    static int16_t whole[ROOM], parts[2 * ROOM];
    pac_board copy = *board, before = *board;
    pac_ran ran = {0}, first = {0}, second = {0};
    uint32_t cut = microseconds / 3;
    uint32_t code = pac_exec(board, roms, sizeof roms, microseconds, whole, ROOM, &ran);
    if (code != PAC_DONE) {
        holds(same(board, &before) && ran.ticks == 0 && ran.samples == 0);
        return;
    }
    holds(pac_exec(&copy, roms, sizeof roms, cut, parts, ROOM, &first) == PAC_DONE);
    code = pac_exec(&copy, roms, sizeof roms, microseconds - cut, parts + first.samples, ROOM, &second);
    holds(code == PAC_DONE && same(board, &copy));
    holds(ran.samples == first.samples + second.samples && memcmp(whole, parts, ran.samples * sizeof *whole) == 0);
    holds(ran.ticks == first.ticks + second.ticks && ran.pictures == first.pictures + second.pictures && ran.stop == second.stop);
    if (ran.stop != PAC_GOES)
        leave(board, &ran, microseconds);
}

/* Cuts so much time of a live board: how many samples it gives at most so far, of which there is room for some more. */
static uint32_t cut(pac_live *live, uint64_t ticks, uint32_t some, int16_t *samples)
{
    static uint8_t places[1 << 16], watched[1 << 16];
    uint32_t heard = 0;
    for (size_t at = 0; at < sizeof places; at++)
        places[at] = at % 61 == some % 61, watched[at] = (uint8_t)(at % 31 == some % 31 ? some : 0);
    for (uint32_t cuts = 0; cuts < CUTS && ticks > 2 * LONGEST; cuts++) {
        pac_until ran = {0};
        pac_ran step = {0};
        pac_registers now = {0};
        some = some * 1103515245u + 12345u;
        if (some >> 30 == 0) {
            holds(pac_live_step(live, samples + heard, ROOM - heard, &step) == PAC_DONE && step.ticks <= LONGEST && step.samples <= 2);
            heard += step.samples, ticks -= step.ticks;
            continue;
        }
        uint32_t asked = (some >> 8) % (uint32_t)(ticks - LONGEST), room = some >> 29 & 1 ? ROOM - heard : (some >> 4) % 40 % (ROOM - heard);
        size_t size = some >> 28 & 1 ? sizeof places : 0, seen = some >> 27 & 1 ? sizeof watched : 0;
        holds(pac_live_until(live, asked, places, size, watched, seen, samples + heard, room, &ran) == PAC_DONE);
        holds(ran.samples <= room && ran.ticks < asked + LONGEST);
        holds(pac_live_registers(live, &now) == PAC_DONE && now.pc == ran.pc && (ran.why == PAC_UNTIL_STOP) == (ran.stop != PAC_GOES));
        holds(ran.why != PAC_UNTIL_PLACE || (size != 0 && places[ran.pc] != 0));
        holds(ran.why != PAC_UNTIL_TIME || ran.ticks >= asked);
        holds((ran.why != PAC_UNTIL_ACCESS || ran.access != 0) && (ran.access == 0 || (seen != 0 && (watched[ran.address] & ran.access) != 0)));
        holds(ran.why != PAC_UNTIL_FULL || ran.samples == room);
        heard += ran.samples, ticks -= ran.ticks;
    }
    return heard;
}

/* Lets a board run, and a live one with its block for as long, cut by pac_live_until and pac_live_step; the samples and the blocks have to be the
 * same. */
static void run_live(pac_board *board, uint32_t microseconds)
{
    static _Alignas(16) uint8_t memory[LIVE];
    static int16_t whole[ROOM], parts[2 * ROOM];
    pac_live live = {memory, sizeof memory, 0};
    pac_board before = *board, after;
    pac_ran ran = {0}, rest = {0};
    if (pac_exec(board, roms, sizeof roms, microseconds, whole, ROOM, &ran) != PAC_DONE)
        return;
    holds(pac_live_open(&live, roms, sizeof roms, 0) == PAC_DONE && pac_live_put(&live, roms, sizeof roms, &before) == PAC_DONE);
    uint32_t heard = cut(&live, ran.ticks, microseconds, parts);
    holds(pac_live_exec(&live, microseconds, parts + heard, ROOM, &rest) == PAC_DONE && pac_live_give(&live, &after) == PAC_DONE);
    holds(same(board, &after) && ran.stop == rest.stop && ran.pc == rest.pc);
    holds(ran.samples == heard + rest.samples && memcmp(whole, parts, ran.samples * sizeof *whole) == 0);
}

/* Saves a board, and loads it into another. */
static void save_and_load(pac_board *board)
{
    static uint8_t text[PAC_STATE_SIZE];
    pac_board other;
    memset(&other, 0xA5, sizeof other);
    uint32_t code = pac_save(board, roms, sizeof roms, text, sizeof text);
    if (code != PAC_DONE)
        return;
    holds(pac_load(&other, roms, sizeof roms, text, sizeof text) == PAC_DONE);
    holds(same(board, &other));
    text[100] ^= 1;
    pac_board kept = other;
    holds(pac_load(&other, roms, sizeof roms, text, sizeof text) == PAC_V5 && same(&other, &kept));
}

/* Draws a board twice. */
static void draw(const pac_board *board)
{
    static uint8_t one[PAC_RGBA_SIZE], other[PAC_RGBA_SIZE];
    pac_board copy = *board;
    uint32_t code = pac_draw(board, roms, sizeof roms, one, sizeof one);
    holds(pac_draw(&copy, roms, sizeof roms, other, sizeof other) == code && same(board, &copy));
    holds(code != PAC_DONE || memcmp(one, other, sizeof one) == 0);
}

/* Makes a call. */
static void call(pac_board *board, uint8_t which, uint16_t number)
{
    pac_board before = *board;
    switch (which % 8) {
    case 0: case 1: run(board, number % MOST); break;
    case 2: run_live(board, number % MOST); break;
    case 3: holds(pac_hold(board, number, 0xFFFF) == PAC_DONE || same(board, &before)); break;
    case 4: holds(pac_reset(board) == PAC_DONE || same(board, &before)); break;
    case 5: save_and_load(board); break;
    case 6: draw(board); break;
    case 7: board->bytes[(number * 67u) % sizeof board->bytes] ^= which; break; /* what no host does */
    }
}

int LLVMFuzzerTestOneInput(const uint8_t *data, size_t size)
{
    static pac_board board;
    if (size < 2 || size < 2u + data[0])
        return 0;
    for (size_t at = 0; at < sizeof roms; at++)
        roms[at] = at < PAC_ROMS_SIZE - 8736u ? 0 : (uint8_t)(at * 37 % 16); /* (a program of NOPs, tiles and colours of some kind) */
    memcpy(roms, data + 2, data[0]);
    if (pac_init(&board, roms, sizeof roms, data[1]) != PAC_DONE)
        __builtin_trap();
    size_t at = 2u + data[0];
    for (int calls = 0; calls < CALLS && at + 3 <= size; calls++, at += 3)
        call(&board, data[at], (uint16_t)(data[at + 1] | data[at + 2] << 8));
    return 0;
}
