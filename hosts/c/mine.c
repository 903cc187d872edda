/* Plays ten seconds of a ROM block, with the joystick to the left in the second half, and writes the last picture. */
#include "pacboard.h"
#include <stdio.h>

static pac_board board;
static uint8_t roms[PAC_ROMS_SIZE], rgba[PAC_RGBA_SIZE];

int main(void)
{
    int16_t samples[PAC_FRAME_SAMPLES + 2];
    pac_ran ran = {0};
    if (!pac_matches() || fread(roms, 1, sizeof roms, stdin) != sizeof roms)
        return 2;
    uint32_t code = pac_init(&board, roms, sizeof roms, PAC_SWITCHES);
    for (int frame = 0; code == PAC_DONE && ran.stop == PAC_GOES && frame < 606; frame++) {
        code = pac_hold(&board, frame < 303 ? 0 : PAC_P1_LEFT, 0xFFFF);
        if (code == PAC_DONE) /* ran.samples of them are now to be played, at 96,000 Hz */
            code = pac_exec(&board, roms, sizeof roms, PAC_FRAME_MICROSECONDS, samples, PAC_FRAME_SAMPLES + 2, &ran);
    }
    if (code != PAC_DONE || (code = pac_draw(&board, roms, sizeof roms, rgba, sizeof rgba)) != PAC_DONE)
        return (int)code;
    printf("P6\n%d %d\n255\n", PAC_WIDTH, PAC_HEIGHT);
    for (size_t at = 0; at < sizeof rgba; at += 4)
        fwrite(rgba + at, 1, 3, stdout);
    return 0;
}
