/* What a core gives to conformance/runner.c, in ten functions. A core is an emulator's board, or one in gates behind a simulator.
 *
 * ROMs are the 25,120 bytes of hosts/roms.py: program 16,384, tiles 4,096, sprites 4,096, colours 32, lookup 256, wave 256. A frame is 50,688 T-states and
 * ends with a vertical blank; it has 1,584 samples, one each 32 T-states. conformance/README.md tells what each has to be.
 */
#ifndef CONFORMANCE_CORE_H
#define CONFORMANCE_CORE_H

#include <stddef.h>
#include <stdint.h>

enum {
    CORE_ROMS = 25120,
    CORE_WIDTH = 288,
    CORE_HEIGHT = 224,
    CORE_RGB = 3 * CORE_WIDTH * CORE_HEIGHT,
    CORE_SAMPLES = 1584,
    CORE_RAM = 3072,
    CORE_STATE = 67756,
};

/* What the core is called. */
const char *core_name(void);

/* A board at power-on, with all RAM 0, whose DIP switches give this byte; null where that can't be. The ROMs stay where they are. */
void *core_make(const uint8_t *roms, uint8_t switches);

/* Ends a board. */
void core_free(void *core);

/* Holds these inputs and no others from now on, as masks of hosts/pacboard.h: bits 0 to 7 are those of 5000H, 8 to 15 those of 5040H. */
void core_hold(void *core, uint16_t inputs);

/* Runs to the next vertical blank, and to the end of the step in which it falls. 0, or another number where the board can't go on. */
int core_frame(void *core);

/* The picture that was finished last: red, green and blue of each pixel, 288 a row, from the upper left one. */
void core_picture(void *core, uint8_t *rgb);

/* The samples of the last frame: how many, 1,584; or 0 where the core has none of this kind, and then they are left out. */
size_t core_samples(void *core, int16_t *samples);

/* All RAM: 4000H to 47FFH, and then 4C00H to 4FFFH. */
void core_ram(void *core, uint8_t *ram);

/* Becomes the board of a state file (docs/FORMATS.md): 0; or another number where the core takes none, and then states are left out. */
int core_load(void *core, const uint8_t *state);

/* Writes the board's state file: 0, or another number as above. Its digests may be anything. */
int core_save(void *core, uint8_t *state);

#endif
