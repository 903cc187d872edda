/* The reference core of conformance/, which does one thing wrong: by the number in the
 * environment's FAULT; or which has no samples or states. tools/check/conformance has the runner tell each. */
#define core_make right_make
#define core_hold right_hold
#define core_frame right_frame
#define core_picture right_picture
#define core_samples right_samples
#define core_ram right_ram
#define core_load right_load
#define core_save right_save
#include "../../conformance/reference.c"
#undef core_make
#undef core_hold
#undef core_frame
#undef core_picture
#undef core_samples
#undef core_ram
#undef core_load
#undef core_save

#define FAULT atoi(getenv("FAULT"))

enum { INPUTS = 1, SWITCHES, PIXEL, SAMPLE, SHORT, BYTE, STOPS, STATE, SAVED, RESET, WITHOUT_SAMPLES, WITHOUT_STATES };

void *core_make(const uint8_t *roms, uint8_t switches)
{
    return right_make(roms, FAULT == SWITCHES ? 0xFF : switches);
}

void core_hold(void *core, uint16_t inputs)
{
    right_hold(core, FAULT == INPUTS ? (uint16_t)(inputs << 8 | inputs >> 8) : inputs);
}

int core_frame(void *core)
{
    struct reference *it = core;

    if (FAULT == RESET)
        it->board.bytes[PAC_AT_WATCHDOG] = 0; /* a watchdog that never resets */
    return right_frame(core) || FAULT == STOPS;
}

void core_picture(void *core, uint8_t *rgb)
{
    right_picture(core, rgb);
    if (FAULT == PIXEL)
        rgb[CORE_RGB - 1] ^= 1;
}

size_t core_samples(void *core, int16_t *samples)
{
    size_t count = right_samples(core, samples);

    if (FAULT == SAMPLE)
        samples[CORE_SAMPLES - 1] ^= 1;
    return FAULT == WITHOUT_SAMPLES ? 0 : FAULT == SHORT ? count - 1 : count;
}

void core_ram(void *core, uint8_t *ram)
{
    right_ram(core, ram);
    if (FAULT == BYTE)
        ram[CORE_RAM - 1] ^= 1;
}

int core_load(void *core, const uint8_t *state)
{
    struct reference *it = core;
    int answer = right_load(core, state);

    if (FAULT == STATE)
        it->board.bytes[PAC_AT_ACCUMULATORS] ^= 1;
    return FAULT == WITHOUT_STATES ? 1 : answer;
}

int core_save(void *core, uint8_t *state)
{
    int answer = right_save(core, state);

    if (FAULT == SAVED)
        state[PAC_AT_R] ^= 1;
    return answer;
}
