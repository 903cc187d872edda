/* Makes each call of the library on a thread whose stack has no more room than docs/HOSTS.md and the header say, and tells how much it takes.
 *
 *   stack
 *
 * A thread's stack is filled with one byte before the call, so what is another one afterwards was used; a page that nobody may touch lies below
 * it. What a thread without a call takes is subtracted. The last line is `N passed, M failed`; the exit status is 0 where M is 0.
 */
#define _GNU_SOURCE
#include "../pacboard.h"

#include <pthread.h>
#include <stdio.h>
#include <stdlib.h>
#include <string.h>
#include <sys/mman.h>

enum { PAGE = 4096, SIZE = 1 << 20, KB = 1024, FILLED = 0xA5 };
#ifdef __aarch64__
enum { LEAST = 128 * KB }; /* bytes of a thread's stack, below which C's library makes none */
#else
enum { LEAST = 16 * KB };
#endif

static pac_board board;
static uint8_t roms[PAC_ROMS_SIZE] = {0x3E, 0x42, 0x32, 0x40, 0x40, 0x76}; /* LD A,42H / LD (4040H),A / HALT */
static uint8_t rgba[PAC_RGBA_SIZE], text[PAC_STATE_SIZE], old_text[PAC_STATE_SIZE];
static int16_t samples[PAC_FRAME_SAMPLES + 2];
static uint8_t none[PAC_ROMS_SIZE]; /* each byte EDH: no instruction */
static uint8_t places[65536], watched[65536];
static pac_live live;
static uint32_t code;
static int passed, failed;

static void *nothing(void *unused)
{
    return unused;
}

static void *init(void *unused)
{
    code = pac_init(&board, roms, sizeof roms, PAC_SWITCHES);
    return unused;
}

static void *hold(void *unused)
{
    code = pac_hold(&board, PAC_START1, 0xFFFF);
    return unused;
}

static void *exec(void *unused)
{
    pac_ran ran;
    code = pac_exec(&board, roms, sizeof roms, PAC_FRAME_MICROSECONDS, samples, PAC_FRAME_SAMPLES + 2, &ran);
    return unused;
}

static void *draw(void *unused)
{
    code = pac_draw(&board, roms, sizeof roms, rgba, sizeof rgba);
    return unused;
}

static void *reset(void *unused)
{
    code = pac_reset(&board);
    return unused;
}

static void *save(void *unused)
{
    code = pac_save(&board, roms, sizeof roms, text, sizeof text);
    return unused;
}

static void *load(void *unused)
{
    code = pac_load(&board, roms, sizeof roms, text, sizeof text);
    return unused;
}

static void *load_old(void *unused)
{
    code = pac_load(&board, roms, sizeof roms, old_text, sizeof old_text);
    return unused;
}

static void *peek(void *unused)
{
    code = pac_peek(&board, roms, sizeof roms, 0x4000, text, 256);
    return unused;
}

static void *live_open(void *unused)
{
    code = pac_live_open(&live, roms, sizeof roms, PAC_SWITCHES);
    return unused;
}

static void *live_put(void *unused)
{
    code = pac_live_put(&live, roms, sizeof roms, &board);
    return unused;
}

static void *live_put_none(void *unused)
{
    code = pac_live_put(&live, none, sizeof none, &board);
    return unused;
}

static void *live_give(void *unused)
{
    code = pac_live_give(&live, &board);
    return unused;
}

static void *live_reset(void *unused)
{
    code = pac_live_reset(&live);
    return unused;
}

static void *live_hold(void *unused)
{
    code = pac_live_hold(&live, PAC_START1, 0xFFFF);
    return unused;
}

static void *live_exec(void *unused)
{
    pac_ran ran;
    code = pac_live_exec(&live, PAC_FRAME_MICROSECONDS, samples, PAC_FRAME_SAMPLES + 2, &ran);
    return unused;
}

static void *live_step(void *unused)
{
    pac_ran ran;
    code = pac_live_step(&live, samples, 2, &ran);
    return unused;
}

static void *live_until(void *unused)
{
    pac_until told;
    code = pac_live_until(&live, 50688, places, sizeof places, watched, sizeof watched, samples, PAC_FRAME_SAMPLES + 2, &told);
    return unused;
}

static void *live_peek(void *unused)
{
    code = pac_live_peek(&live, 0x4000, text, 256);
    return unused;
}

static void *live_registers(void *unused)
{
    pac_registers registers;
    code = pac_live_registers(&live, &registers);
    return unused;
}

static void *live_draw(void *unused)
{
    code = pac_live_draw(&live, PAC_RGBA, rgba, sizeof rgba);
    return unused;
}

static void *live_lines(void *unused)
{
    code = pac_live_lines(&live, rgba, PAC_LINES_SIZE, text, PAC_PALETTE_SIZE);
    return unused;
}

static void *live_save(void *unused)
{
    code = pac_live_save(&live, text, sizeof text);
    return unused;
}

static void *live_load(void *unused)
{
    code = pac_live_load(&live, text, sizeof text);
    return unused;
}

static void *live_load_old(void *unused)
{
    code = pac_live_load(&live, old_text, sizeof old_text);
    return unused;
}

static void *live_close(void *unused)
{
    code = pac_live_close(&live);
    return unused;
}

/* Lays a state file of version 1, within a frame: its lines are composed when it is taken. */
static void lay_old(void)
{
    static const uint8_t digest[] = {0x45, 0x2E, 0xF0, 0x0F, 0x39, 0x31, 0xBA, 0x86, 0x6F, 0xB4,
                                     0x5B, 0x72, 0xEE, 0xC2, 0x71, 0xA4, 0x28, 0x4B, 0x52, 0xAF};
    pac_ran ran;
    pac_init(&board, roms, sizeof roms, PAC_SWITCHES);
    pac_exec(&board, roms, sizeof roms, PAC_FRAME_MICROSECONDS - 1000, samples, PAC_FRAME_SAMPLES + 2, &ran);
    pac_save(&board, roms, sizeof roms, old_text, sizeof old_text);
    old_text[8] = 1;
    memcpy(old_text + sizeof old_text - sizeof digest, digest, sizeof digest);
}

/* The bytes that a thread takes of a stack of this size, or of the least one, whose end is the end of a page; 0 where there can be no such thread. */
static size_t taken(void *(*call)(void *), size_t asked)
{
    size_t size = asked < LEAST ? LEAST : asked;
    uint8_t *room = mmap(NULL, SIZE + PAGE, PROT_READ | PROT_WRITE, MAP_PRIVATE | MAP_ANONYMOUS, -1, 0);
    size_t untouched = 0;
    pthread_attr_t attributes;
    pthread_t thread;
    if (room == MAP_FAILED || mprotect(room, SIZE + PAGE - size, PROT_NONE) != 0 || pthread_attr_init(&attributes) != 0)
        return 0;
    uint8_t *stack = room + SIZE + PAGE - size;
    memset(stack, FILLED, size);
    if (pthread_attr_setstack(&attributes, stack, size) != 0 || pthread_create(&thread, &attributes, call, NULL) != 0)
        return 0;
    pthread_join(thread, NULL);
    while (untouched < size && stack[untouched] == FILLED)
        untouched++;
    pthread_attr_destroy(&attributes), munmap(room, SIZE + PAGE);
    return size - untouched;
}

int main(void)
{
    /* a call, and its room in KB: what the page and the header say */
    static const struct {
        const char *what;
        void *(*call)(void *);
        size_t most;
    } calls[] = {
        {"pac_init", init, 32}, {"pac_hold", hold, 32}, {"pac_exec", exec, 208}, {"pac_draw", draw, 32}, {"pac_peek", peek, 32},
        {"pac_reset", reset, 32}, {"pac_save", save, 32}, {"pac_load", load, 32}, {"pac_load of version 1", load_old, 32},
        {"pac_live_open", live_open, 32}, {"pac_live_hold", live_hold, 32}, {"pac_live_exec", live_exec, 32}, {"pac_live_step", live_step, 32}, {"pac_live_until", live_until, 32},
        {"pac_live_peek", live_peek, 32}, {"pac_live_registers", live_registers, 32}, {"pac_live_draw", live_draw, 32}, {"pac_live_lines", live_lines, 32},
        {"pac_live_save", live_save, 32}, {"pac_live_load", live_load, 32},
        {"pac_live_load of version 1", live_load_old, 32}, {"pac_live_give", live_give, 32}, {"pac_live_put", live_put, 32},
        {"pac_live_put of no program", live_put_none, 32}, {"pac_live_reset", live_reset, 32}, {"pac_live_step at a stop", live_step, 32}, {"pac_live_until at a stop", live_until, 32},
        {"pac_live_exec at a stop", live_exec, 32}, {"pac_live_close", live_close, 32},
    };
    lay_old();
    memset(none, 0xED, sizeof none);
    live.size = pac_live_size(), live.at = aligned_alloc(16, (live.size + 15) / 16 * 16);
    if (live.at == NULL)
        return 3;
    size_t thread = taken(nothing, 64 * KB);
    for (size_t at = 0; at < sizeof calls / sizeof *calls; at++) {
        code = PAC_NULL;
        size_t bytes = taken(calls[at].call, (calls[at].most * KB + thread + PAGE - 1) / PAGE * PAGE);
        int is_so = code == PAC_DONE && bytes >= thread && bytes - thread <= calls[at].most * KB;
        passed += is_so, failed += !is_so;
        printf("%s%s: %zu bytes of stack\n", is_so ? "" : "FAILED: ", calls[at].what, bytes - thread);
    }
    printf("%d passed, %d failed\n", passed, failed);
    return failed != 0;
}
