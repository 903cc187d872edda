/* Times the calls of a live board on a ROM block: 600 frames, nine times, of which the least is told.
 *
 *   cc -O2 bench/live.c hosts/out/libpac_host.a -o live && ./live hosts/out/starfall.roms
 *
 * Nothing is held. The ROM block is made by hosts/build, or by hosts/roms.py.
 */
#define _POSIX_C_SOURCE 200112L
#include "../hosts/pacboard.h"

#include <stdio.h>
#include <stdlib.h>
#include <string.h>
#include <time.h>

enum { FRAMES = 600, ROUNDS = 9, MANY = 2000, TICKS = 50688, PLACES = 65536, ROOM = PAC_FRAME_SAMPLES + 2, KINDS = 11 };

static const char *const names[KINDS] = {
    "a frame: hold, exec and draw", "a frame by exec alone", "by until, no address", "by until, one address", "by until, one byte watched",
    "a step (nanoseconds)", "draw", "hold (nanoseconds)", "open", "put", "give",
};
static double least[KINDS];
static uint8_t roms[PAC_ROMS_SIZE], pixels[PAC_RGBA_SIZE], places[PLACES], watched[PLACES];
static int16_t samples[ROOM];
static pac_board block;
static pac_live live;

/* Microseconds of a clock. */
static double now(void)
{
    struct timespec at;
    clock_gettime(CLOCK_MONOTONIC, &at);
    return (double)at.tv_sec * 1e6 + (double)at.tv_nsec / 1e3;
}

/* A frame of a kind, by how many calls it takes: what went wrong. */
static uint32_t frame(int kind)
{
    pac_ran ran;
    pac_until told = {0};
    if (kind < 2) {
        uint32_t codes = kind == 0 ? pac_live_hold(&live, 0, 0xFFFF) : PAC_DONE;
        codes |= pac_live_exec(&live, PAC_FRAME_MICROSECONDS, samples, ROOM, &ran);
        return codes | (kind == 0 ? pac_live_draw(&live, PAC_BGRA, pixels, sizeof pixels) : PAC_DONE);
    }
    for (uint64_t left = TICKS, given = 0; left > 0; left -= told.ticks < left ? told.ticks : left, given += told.samples) {
        uint32_t code = pac_live_until(&live, (uint32_t)left, places, kind == 3 ? PLACES : 0, watched, kind == 4 ? PLACES : 0, samples + given,
                                       ROOM - given, &told);
        if (code != PAC_DONE || told.why == PAC_UNTIL_STOP)
            return 1;
    }
    return PAC_DONE;
}

/* A call of a kind. */
static uint32_t call(int kind)
{
    pac_ran ran;
    switch (kind) {
    case 5: return pac_live_step(&live, samples, ROOM, &ran);
    case 6: return pac_live_draw(&live, PAC_BGRA, pixels, sizeof pixels);
    case 7: return pac_live_hold(&live, 0, 0xFFFF);
    case 8: return pac_live_open(&live, roms, sizeof roms, PAC_SWITCHES);
    case 9: return pac_live_put(&live, roms, sizeof roms, &block);
    default: return pac_live_give(&live, &block);
    }
}

/* Each kind once, from power-on or from the board that the frames left; whether all was done. */
static uint32_t round_of(void)
{
    uint32_t codes = PAC_DONE;
    for (int kind = 0; kind < KINDS; kind++) {
        int is_frame = kind < 5, count = is_frame ? FRAMES : MANY;
        codes |= is_frame ? pac_live_open(&live, roms, sizeof roms, PAC_SWITCHES) : kind == 8 ? pac_live_give(&live, &block) : PAC_DONE;
        double begun = now();
        for (int turn = 0; turn < count; turn++)
            codes |= is_frame ? frame(kind) : call(kind);
        double each = (now() - begun) / count * (kind == 5 || kind == 7 ? 1000 : 1);
        least[kind] = least[kind] == 0 || each < least[kind] ? each : least[kind];
    }
    return codes;
}

int main(int count, char **words)
{
    FILE *file = count > 1 ? fopen(words[1], "rb") : NULL;
    live.size = (pac_live_size() + 15) / 16 * 16;
    if (!file || fread(roms, 1, sizeof roms, file) != sizeof roms || posix_memalign(&live.at, 16, live.size) != 0)
        return fprintf(stderr, "usage: live ROMS [ADDRESS [WATCHED]], addresses as of strtol: where the board stops in each frame\n"), 2;
    fclose(file);
    places[count > 2 ? strtol(words[2], NULL, 0) & (PLACES - 1) : 0x38] = 1;
    watched[count > 3 ? strtol(words[3], NULL, 0) & (PLACES - 1) : 0x50C0] = 1;
    for (int round = 0; round < ROUNDS; round++)
        if (round_of() != PAC_DONE)
            return fprintf(stderr, "live: a call that isn't done\n"), 1;
    for (int kind = 0; kind < KINDS; kind++)
        printf("%-28s %8.2f\n", names[kind], least[kind]);
    return 0;
}
