/* Holds the event-driven board in C against the proved one, in a block and live, frame by frame, and times all three. bench/peer.py builds it.
 *
 *     peer check SWITCHES FRAMES ROMS HELD [STATE]    compares; the last line is how much was compared, and the exit status 1 where something differs
 *     peer time FRAMES ROMS HELD                      a line for each twenty frames: microseconds by pac_exec, by pac_live_exec and by the board in C
 *     peer library FRAMES ROMS HELD                   plays once by pac_exec alone: for callgrind, by the function play_library
 *     peer live FRAMES ROMS HELD                      the same by pac_live_exec: play_live
 *     peer events FRAMES ROMS HELD                    the same by the board in C: play_events
 *
 * ROMS is a ROM block, HELD has two bytes for each frame, after which nothing is held, and STATE is a state file with which both begin.
 */
#define _POSIX_C_SOURCE 200112L
#include <stdio.h>
#include <stdlib.h>
#include <string.h>
#include <time.h>

#include "../conformance/core.h"
#include "../hosts/pacboard.h"

enum { LONGEST = 36000, TOGETHER = 20 /* frames that are timed together, as in bench.rs */, KINDS = 3 };
enum { FIRST = 30, END = PAC_STATE_SIZE - 20 }; /* of a block: where its digests end and begin */

static const char *const names[KINDS] = {"library", "live", "events"};
static uint8_t roms[PAC_ROMS_SIZE + 1], held[2 * LONGEST], state[PAC_STATE_SIZE + 1];
static pac_board board;
static pac_live live;
static int16_t samples[PAC_FRAME_SAMPLES + 2];
static unsigned long frames;

/* Ends with a word about why. */
static void fail(const char *what, const char *name)
{
    fprintf(stderr, "peer: %s: %s\n", name, what);
    exit(3);
}

/* Reads a file, so many bytes at most: how many there are. */
static size_t read_file(const char *name, uint8_t *bytes, size_t most)
{
    FILE *file = fopen(name, "rb");
    size_t length;

    if (file == NULL)
        fail("it can't be read", name);
    length = fread(bytes, 1, most, file);
    fclose(file);
    return length;
}

/* What is held in a frame. */
static uint16_t inputs(unsigned long frame)
{
    return frame < LONGEST ? (uint16_t)(held[2 * frame] | held[2 * frame + 1] << 8) : 0;
}

/* Plays frames, from one to before another, by the library: the sum of all codes. */
__attribute__((noinline)) static uint32_t play_library(unsigned long first, unsigned long end)
{
    uint32_t codes = 0;
    pac_ran ran;

    for (unsigned long frame = first; frame < end; frame++) {
        if (frame == 0 || inputs(frame) != inputs(frame - 1))
            codes += pac_hold(&board, inputs(frame), 0xFFFF);
        codes += pac_exec(&board, roms, PAC_ROMS_SIZE, PAC_FRAME_MICROSECONDS, samples, PAC_FRAME_SAMPLES + 2, &ran);
    }
    return codes;
}

/* The same by the live board. */
__attribute__((noinline)) static uint32_t play_live(unsigned long first, unsigned long end)
{
    uint32_t codes = 0;
    pac_ran ran;

    for (unsigned long frame = first; frame < end; frame++) {
        if (frame == 0 || inputs(frame) != inputs(frame - 1))
            codes += pac_live_hold(&live, inputs(frame), 0xFFFF);
        codes += pac_live_exec(&live, PAC_FRAME_MICROSECONDS, samples, PAC_FRAME_SAMPLES + 2, &ran);
    }
    return codes;
}

/* Plays frames by the board in C: how many stopped. */
__attribute__((noinline)) static uint32_t play_events(void *core, unsigned long first, unsigned long end)
{
    uint32_t codes = 0;

    for (unsigned long frame = first; frame < end; frame++) {
        core_hold(core, inputs(frame));
        codes += (uint32_t)core_frame(core);
    }
    return codes;
}

/* Plays frames by one of them, in the order of their names. */
static uint32_t play(int which, void *core, unsigned long first, unsigned long end)
{
    return which == 0 ? play_library(first, end) : which == 1 ? play_live(first, end) : play_events(core, first, end);
}

/* Microseconds of a clock. */
static double now(void)
{
    struct timespec at;

    clock_gettime(CLOCK_MONOTONIC, &at);
    return (double)at.tv_sec * 1e6 + (double)at.tv_nsec / 1e3;
}

/* Makes all three boards. */
static void *all_made(uint8_t switches)
{
    void *core = core_make(roms, switches);

    live.size = (pac_live_size() + 15) / 16 * 16;
    if (core == NULL || posix_memalign(&live.at, 16, live.size) != 0 || pac_init(&board, roms, PAC_ROMS_SIZE, switches) != PAC_DONE ||
        pac_live_open(&live, roms, PAC_ROMS_SIZE, switches) != PAC_DONE)
        fail("no board is made", "roms");
    return core;
}

/* Where the frames end that are timed together, which begin at one. */
static unsigned long end_from(unsigned long first)
{
    return frames - first < TOGETHER ? frames : first + TOGETHER;
}

/* Times all, one after the other, some frames at a time. */
static int time_all(void)
{
    static double took[KINDS][LONGEST / TOGETHER + 1];
    void *core = all_made(PAC_SWITCHES);
    uint32_t codes = 0;

    if (frames > LONGEST)
        fail("so many frames have no room", "time");
    for (int which = 0; which < KINDS; which++)
        for (unsigned long first = 0; first < frames; first = end_from(first)) {
            double begun = now();
            codes += play(which, core, first, end_from(first));
            took[which][first / TOGETHER] = now() - begun;
        }
    core_free(core);
    if (codes != 0)
        fail("a call is refused, or a board stops", "time");
    for (unsigned long first = 0; first < frames; first = end_from(first))
        printf("%.2f %.2f %.2f\n", took[0][first / TOGETHER], took[1][first / TOGETHER], took[2][first / TOGETHER]);
    return 0;
}

/* Tells the first byte that differs. */
static int differs(const char *what, unsigned long frame, const uint8_t *one, const uint8_t *other, size_t size)
{
    for (size_t at = 0; at < size; at++)
        if (one[at] != other[at]) {
            printf("frame %lu: %s: byte %zu is %u in the library and %u in the other\n", frame + 1, what, at, one[at], other[at]);
            return 1;
        }
    return 0;
}

/* Compares what a frame left: samples, the picture in colours, and the whole block, in which are registers, RAM, counts and the picture. */
static int compare(void *core, unsigned long frame, const pac_ran *ran)
{
    static uint8_t rgba[PAC_RGBA_SIZE], rgb[CORE_RGB], drawn[CORE_RGB];
    static int16_t others[PAC_FRAME_SAMPLES + 2];
    size_t count = core_samples(core, others);

    pac_draw(&board, roms, PAC_ROMS_SIZE, rgba, sizeof rgba);
    for (size_t at = 0; at < CORE_RGB; at++)
        drawn[at] = rgba[at / 3 * 4 + at % 3];
    core_picture(core, rgb), core_save(core, state);
    if (count != ran->samples)
        return printf("frame %lu: %zu samples and not %u\n", frame + 1, count, ran->samples), 1;
    return differs("samples", frame, (uint8_t *)samples, (uint8_t *)others, 2 * count) || differs("picture", frame, drawn, rgb, CORE_RGB) ||
           differs("block", frame, board.bytes + FIRST, state + FIRST, END - FIRST);
}

/* Has the live board play the same frame, and compares what it tells, its samples and its block. */
static int compare_live(unsigned long frame, const pac_ran *ran)
{
    static int16_t others[PAC_FRAME_SAMPLES + 2];
    static pac_board given;
    pac_ran told = {0};

    if (pac_live_hold(&live, inputs(frame), 0xFFFF) != PAC_DONE ||
        pac_live_exec(&live, PAC_FRAME_MICROSECONDS, others, PAC_FRAME_SAMPLES + 2, &told) != PAC_DONE || pac_live_give(&live, &given) != PAC_DONE)
        fail("a call of the live board is refused", "check");
    if (told.ticks != ran->ticks || told.samples != ran->samples || told.pictures != ran->pictures || told.stop != ran->stop ||
        told.pc != ran->pc || told.vector != ran->vector || memcmp(told.bytes, ran->bytes, sizeof told.bytes) != 0)
        return printf("frame %lu: the live board tells something else\n", frame + 1), 1;
    return differs("the live board's samples", frame, (const uint8_t *)samples, (const uint8_t *)others, ran->samples * sizeof *samples) ||
           differs("the live board", frame, (const uint8_t *)&board, (const uint8_t *)&given, sizeof board);
}

/* Plays all three frame by frame, from a state where one is given, and compares all of each. */
static int check(uint8_t switches, const char *from)
{
    void *core = all_made(switches);
    unsigned long frame = 0, heard = 0;
    int is_stopped = 0;

    if (from != NULL && (read_file(from, state, sizeof state) != PAC_STATE_SIZE || core_load(core, state) != 0 ||
                         pac_load(&board, roms, PAC_ROMS_SIZE, state, PAC_STATE_SIZE) != PAC_DONE ||
                         pac_live_load(&live, state, PAC_STATE_SIZE) != PAC_DONE))
        fail("the state is refused", from);
    for (; frame < frames && !is_stopped; frame++) {
        pac_ran ran;

        core_hold(core, inputs(frame));
        is_stopped = core_frame(core);
        if (pac_hold(&board, inputs(frame), 0xFFFF) != PAC_DONE ||
            pac_exec(&board, roms, PAC_ROMS_SIZE, PAC_FRAME_MICROSECONDS, samples, PAC_FRAME_SAMPLES + 2, &ran) != PAC_DONE)
            fail("a call is refused", "check");
        if ((ran.stop != PAC_GOES) != is_stopped)
            return printf("frame %lu: one board stops\n", frame + 1), 1;
        if (compare(core, frame, &ran) || compare_live(frame, &ran))
            return 1;
        heard += ran.samples;
    }
    printf("%lu frames, %lu samples, %lu pixels%s\n", frame, heard, frame * PAC_WIDTH * PAC_HEIGHT, is_stopped ? ", a stop" : "");
    core_free(core);
    return 0;
}

int main(int count, char **words)
{
    int numbers = count > 1 && strcmp(words[1], "check") == 0 ? 2 : 1;

    if (count != numbers + 4 && !(count == 7 && strcmp(words[1], "check") == 0))
        return fprintf(stderr, "peer: usage: see the head of bench/peer.c\n"), 2;
    frames = strtoul(words[numbers + 1], NULL, 10);
    if (read_file(words[numbers + 2], roms, sizeof roms) != PAC_ROMS_SIZE)
        fail("it is no ROM block", words[numbers + 2]);
    read_file(words[numbers + 3], held, sizeof held);
    if (strcmp(words[1], "check") == 0)
        return check((uint8_t)strtoul(words[2], NULL, 10), count == 7 ? words[6] : NULL);
    if (strcmp(words[1], "time") == 0)
        return time_all();
    void *core = all_made(PAC_SWITCHES);
    for (int which = 0; which < KINDS; which++)
        if (strcmp(words[1], names[which]) == 0)
            return (int)play(which, core, 0, frames);
    fail("no board has this name", words[1]);
}
