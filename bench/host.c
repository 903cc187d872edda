/* Times the calls of the board's C library on a ROM block: 600 frames, nine times, of which the least is told; first pac_exec alone, frame
 * after frame, and then all calls in turn, each of which finds in the processor's caches what the others have left.
 *
 *   cc -O2 bench/host.c hosts/out/libpac_host.a -o host && ./host hosts/out/starfall.roms
 *
 * Nothing is held. The ROM block is made by hosts/build, or by hosts/roms.py.
 */
#define _POSIX_C_SOURCE 199309L
#include "../hosts/pacboard.h"

#include <stdio.h>
#include <time.h>

enum { FRAMES = 600, ROUNDS = 9, CALLS = 7 };

static const char *const names[CALLS] = {"pac_exec among all", "pac_hold", "pac_draw", "pac_save", "pac_load", "pac_init", "a copy of the block"};
static double least[CALLS];
static pac_board board, kept;
static uint8_t roms[PAC_ROMS_SIZE], rgba[PAC_RGBA_SIZE], text[PAC_STATE_SIZE];

/* Microseconds of a clock. */
static double now(void)
{
    struct timespec at;
    clock_gettime(CLOCK_MONOTONIC, &at);
    return (double)at.tv_sec * 1e6 + (double)at.tv_nsec / 1e3;
}

/* Plays the frames once by pac_exec alone, and tells the time; the sum of all codes. */
static uint32_t play_alone(double *sum)
{
    int16_t samples[PAC_FRAME_SAMPLES + 2];
    pac_ran ran;
    uint32_t codes = pac_init(&board, roms, sizeof roms, PAC_SWITCHES);
    double begun = now();
    for (int frame = 0; frame < FRAMES; frame++)
        codes += pac_exec(&board, roms, sizeof roms, PAC_FRAME_MICROSECONDS, samples, PAC_FRAME_SAMPLES + 2, &ran);
    *sum = now() - begun;
    return codes;
}

/* Plays the frames once, each with all calls, and adds their times up; the sum of all codes. */
static uint32_t play(double *sums)
{
    int16_t samples[PAC_FRAME_SAMPLES + 2];
    pac_ran ran;
    uint32_t codes = pac_init(&board, roms, sizeof roms, PAC_SWITCHES);
    for (int frame = 0; frame < FRAMES; frame++) {
        double at[CALLS + 1];
        at[0] = now();
        codes += pac_exec(&board, roms, sizeof roms, PAC_FRAME_MICROSECONDS, samples, PAC_FRAME_SAMPLES + 2, &ran);
        at[1] = now();
        codes += pac_hold(&board, 0, 0xFFFF);
        at[2] = now();
        codes += pac_draw(&board, roms, sizeof roms, rgba, sizeof rgba);
        at[3] = now();
        codes += pac_save(&board, roms, sizeof roms, text, sizeof text);
        at[4] = now();
        codes += pac_load(&board, roms, sizeof roms, text, sizeof text);
        at[5] = now();
        codes += pac_init(&kept, roms, sizeof roms, PAC_SWITCHES);
        at[6] = now();
        kept = board;
        at[7] = now();
        for (int call = 0; call < CALLS; call++)
            sums[call] += at[call + 1] - at[call];
    }
    return codes;
}

int main(int count, char **words)
{
    FILE *file = count == 2 ? fopen(words[1], "rb") : NULL;
    if (file == NULL || fread(roms, 1, sizeof roms, file) != sizeof roms)
        return fprintf(stderr, "usage: host ROMS\n"), 2;
    fclose(file);
    double least_alone = 0;
    for (int round = 0; round < ROUNDS; round++) {
        double alone, sums[CALLS] = {0};
        if (play_alone(&alone) != 0 || play(sums) != 0)
            return fprintf(stderr, "host: a call is refused\n"), 4;
        if (round == 0 || alone < least_alone)
            least_alone = alone;
        for (int call = 0; call < CALLS; call++)
            if (round == 0 || sums[call] < least[call])
                least[call] = sums[call];
    }
    printf("%-20s %8.1f microseconds\n", "pac_exec, a frame", least_alone / FRAMES);
    for (int call = 0; call < CALLS; call++)
        printf("%-20s %8.1f microseconds\n", names[call], least[call] / FRAMES);
    return 0;
}
