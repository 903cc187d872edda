/* Plays a second of a ROM block, and prints where each of the next ten steps begins. */
#include "pacboard.h"
#include <stdio.h>
#include <stdlib.h>

int main(void)
{
    static uint8_t roms[PAC_ROMS_SIZE];
    int16_t samples[PAC_FRAME_SAMPLES + 2];
    pac_ran ran;
    pac_registers now;
    size_t size = (pac_live_size() + 15) / 16 * 16;
    pac_live live = {aligned_alloc(16, size), size, 0};
    if (live.at == NULL || fread(roms, 1, sizeof roms, stdin) != sizeof roms)
        return 2;
    uint32_t code = pac_live_open(&live, roms, sizeof roms, PAC_SWITCHES);
    for (int frame = 0; code == PAC_DONE && frame < 60; frame++)
        code = pac_live_exec(&live, PAC_FRAME_MICROSECONDS, samples, PAC_FRAME_SAMPLES + 2, &ran);
    for (int step = 0; code == PAC_DONE && step < 10; step++) {
        if (pac_live_registers(&live, &now) == PAC_DONE)
            printf("%04X\n", now.pc);
        code = pac_live_step(&live, samples, 2, &ran);
    }
    free(live.at);
    return (int)code;
}
