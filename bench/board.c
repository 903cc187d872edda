/* Times the board alone, by the C library: 3,600 frames of the mixed program, in calls of pac_exec for 60 frames each, so that hardly any time
 * goes to the block that each call reads and writes. Its sums are those that plain Rust (bench/bench.rs) prints for the same work.
 *
 *   bench/mixed.py PACBOARD mixed.roms
 *   cc -O2 bench/board.c hosts/out/libpac_host.a -o board && ./board mixed.roms [ROUNDS]
 *
 * The least time of so many rounds is told, of one where none are given.
 */
#define _POSIX_C_SOURCE 199309L
#include "../hosts/pacboard.h"

#include <inttypes.h>
#include <stdio.h>
#include <stdlib.h>
#include <time.h>

enum {
    CALLS = 60,
    FRAMES = 60, /* of a call */
    ROOM = FRAMES * PAC_FRAME_SAMPLES + 2,
    STEPS = 66, /* the place of the steps in a block, by docs/FORMATS.md */
    PICTURE = 3224,
};

/* What the frames came to. */
typedef struct sum {
    uint64_t steps, time, samples, pictures, sound, picture;
} sum;

static pac_board board;
static uint8_t roms[PAC_ROMS_SIZE];
static int16_t samples[ROOM];

/* A sum with one more number, in which the order tells. */
static uint64_t summed(uint64_t sum, uint64_t number)
{
    return (sum << 5 | sum >> 59) ^ number;
}

/* Runs the frames, and sums up the samples; the sum of all codes. A function of its own, so that its instructions can be counted. */
#if defined(__GNUC__)
__attribute__((noinline))
#endif
static uint32_t run_frames(sum *all)
{
    uint32_t codes = 0;
    for (int call = 0; call < CALLS; call++) {
        pac_ran ran = {0};
        codes += pac_exec(&board, roms, sizeof roms, FRAMES * PAC_FRAME_MICROSECONDS, samples, ROOM, &ran);
        all->time += ran.ticks, all->samples += ran.samples, all->pictures += ran.pictures;
        for (uint32_t at = 0; at < ran.samples; at++)
            all->sound = summed(all->sound, (uint64_t)(samples[at] + 32768));
    }
    return codes;
}

/* Runs the frames on a new board, and gives their nanoseconds, or ends where a call is refused. */
static uint64_t make_round(sum *all)
{
    struct timespec from, to;
    *all = (sum){0};
    uint32_t codes = pac_init(&board, roms, sizeof roms, PAC_SWITCHES);
    clock_gettime(CLOCK_MONOTONIC, &from);
    codes += run_frames(all);
    clock_gettime(CLOCK_MONOTONIC, &to);
    if (codes != 0)
        fputs("board: a call is refused\n", stderr), exit(4);
    for (int byte = 7; byte >= 0; byte--)
        all->steps = all->steps << 8 | board.bytes[STEPS + byte];
    for (int at = 0; at < PAC_WIDTH * PAC_HEIGHT; at++)
        all->picture = summed(all->picture, board.bytes[PICTURE + at]);
    return (uint64_t)((to.tv_sec - from.tv_sec) * 1000000000 + to.tv_nsec - from.tv_nsec);
}

int main(int count, char **words)
{
    FILE *file = count == 2 || count == 3 ? fopen(words[1], "rb") : NULL;
    if (file == NULL || fread(roms, 1, sizeof roms, file) != sizeof roms)
        return fprintf(stderr, "usage: board ROMS [ROUNDS]\n"), 2;
    fclose(file);
    sum all;
    uint64_t least = make_round(&all);
    for (long left = count == 3 ? strtol(words[2], NULL, 10) : 1; left > 1; left--) {
        uint64_t nanos = make_round(&all);
        least = nanos < least ? nanos : least;
    }
    printf("board: %d frames in %" PRIu64 " microseconds, %.0f a second, %.1f ns a step\n", CALLS * FRAMES, least / 1000,
           CALLS * FRAMES * 1e9 / (double)least, (double)least / (double)all.steps);
    printf("board: %" PRIu64 " steps, time %" PRIu64 ", %" PRIu64 " samples, %" PRIu64 " pictures, ", all.steps, all.time, all.samples, all.pictures);
    printf("samples' sum %" PRIu64 ", last picture's sum %" PRIu64 "\n", all.sound, all.picture);
    return 0;
}
