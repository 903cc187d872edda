/* One live board with its ROMs, as the players in hosts/libretro and hosts/sdl hold it. They make pacboard.h's calls on `live`; here is what
 * those leave to a host: memory, ROMs and content. Where nothing else is said, a call answers a code of pacboard.h. */
#ifndef PAC_MACHINE_H
#define PAC_MACHINE_H

#include "content.h"

enum {
    MACHINE_ALIGNED = 16,                 /* where the memory of a live board begins */
    MACHINE_ROOM = PAC_FRAME_SAMPLES + 2, /* samples that a frame gives at most */
    MACHINE_FRAME = 50688,                /* T-states of a frame */
};

/* All zeros is a machine without a board. */
typedef struct machine {
    pac_live live;
    uint8_t roms[PAC_ROMS_SIZE];
} machine;

/* Puts a board at power-on, with these ROMs and the byte of its DIP switches, into memory that is taken the first time. */
static inline uint32_t machine_open(machine *it, const uint8_t *roms, uint8_t switches)
{
    size_t size = (pac_live_size() + MACHINE_ALIGNED - 1) / MACHINE_ALIGNED * MACHINE_ALIGNED;
    if (it->live.at == NULL)
        it->live.at = aligned_alloc(MACHINE_ALIGNED, size), it->live.size = it->live.at == NULL ? 0 : size;
    uint32_t code = pac_live_open(&it->live, roms, PAC_ROMS_SIZE, switches);
    if (code == PAC_DONE)
        memmove(it->roms, roms, PAC_ROMS_SIZE);
    return code;
}

/* Puts a board at power-on with the content of a path: what is wrong, and NULL where nothing is. */
static inline const char *machine_load(machine *it, const char *path, uint8_t switches)
{
    static uint8_t roms[PAC_ROMS_SIZE];
    const char *wrong = pac_matches() ? content_read(path, roms) : "the header is another library's";
    return wrong != NULL ? wrong : machine_open(it, roms, switches) != PAC_DONE ? "the board isn't made" : NULL;
}

/* Gives the memory back. */
static inline void machine_close(machine *it)
{
    free(it->live.at);
    it->live = (pac_live){0};
}

/* Goes to a kept block, if it is a board's. */
static inline uint32_t machine_put(machine *it, const pac_board *board)
{
    return pac_live_put(&it->live, it->roms, PAC_ROMS_SIZE, board);
}

#endif
