/* The ten functions of conformance/core.h over the proved board's library. */
#include "core.h"

#include <stdlib.h>

#include "../hosts/pacboard.h"

/* A board, its ROMs, and the samples of the last frame. */
struct reference {
    pac_board board;
    const uint8_t *roms;
    int16_t samples[CORE_SAMPLES + 2];
    size_t count;
};

const char *core_name(void)
{
    return "the proved board";
}

void *core_make(const uint8_t *roms, uint8_t switches)
{
    struct reference *made = calloc(1, sizeof *made);

    if (made == NULL || !pac_matches() || pac_init(&made->board, roms, CORE_ROMS, switches) != PAC_DONE) {
        free(made);
        return NULL;
    }
    made->roms = roms;
    return made;
}

void core_free(void *core)
{
    free(core);
}

void core_hold(void *core, uint16_t inputs)
{
    struct reference *it = core;

    pac_hold(&it->board, inputs, 0xFFFF);
}

int core_frame(void *core)
{
    struct reference *it = core;
    pac_ran ran;

    if (pac_exec(&it->board, it->roms, CORE_ROMS, PAC_FRAME_MICROSECONDS, it->samples, CORE_SAMPLES + 2, &ran) != PAC_DONE)
        return 1;
    it->count = ran.samples;
    return ran.stop != PAC_GOES;
}

void core_picture(void *core, uint8_t *rgb)
{
    static uint8_t rgba[PAC_RGBA_SIZE];
    struct reference *it = core;

    pac_draw(&it->board, it->roms, CORE_ROMS, rgba, sizeof rgba);
    for (size_t pixel = 0; pixel < PAC_RGBA_SIZE / 4; pixel++)
        for (size_t channel = 0; channel < 3; channel++)
            rgb[3 * pixel + channel] = rgba[4 * pixel + channel];
}

size_t core_samples(void *core, int16_t *samples)
{
    struct reference *it = core;

    for (size_t at = 0; at < it->count && at < CORE_SAMPLES; at++)
        samples[at] = it->samples[at];
    return it->count;
}

void core_ram(void *core, uint8_t *ram)
{
    struct reference *it = core;

    for (size_t at = 0; at < CORE_RAM; at++)
        ram[at] = it->board.bytes[PAC_AT_TILE_RAM + at];
}

int core_load(void *core, const uint8_t *state)
{
    struct reference *it = core;

    return pac_load(&it->board, it->roms, CORE_ROMS, state, CORE_STATE) != PAC_DONE;
}

int core_save(void *core, uint8_t *state)
{
    struct reference *it = core;

    return pac_save(&it->board, it->roms, CORE_ROMS, state, CORE_STATE) != PAC_DONE;
}
