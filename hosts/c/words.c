/* Calls that take numbers of 8 and 16 bits, handed in with bits above them, as a caller may leave them in a register: nothing may come of those. */
#include "../pacboard.h"
#include <stdio.h>
#include <string.h>

typedef uint32_t (*init_call)(pac_board *board, const uint8_t *roms, size_t length, uint64_t switches);
typedef uint32_t (*hold_call)(pac_board *board, uint64_t set, uint64_t clear);
typedef uint32_t (*peek_call)(const pac_board *board, const uint8_t *roms, size_t length, uint64_t address, uint8_t *bytes, size_t bytes_length);

#define ABOVE 0xFEDCBA9876540000u

static unsigned passed, failed;
static pac_board board, other;
static uint8_t roms[PAC_ROMS_SIZE];

/* Counts a row, and shows one that isn't so. */
static void row(const char *what, int is_so)
{
    passed += (unsigned)(is_so != 0);
    failed += (unsigned)(is_so == 0);
    if (!is_so)
        printf("FAILED: %s\n", what);
}

int main(void)
{
    uint8_t one = 0, two = 0;
    void (*calls[])(void) = {(void (*)(void))pac_init, (void (*)(void))pac_hold, (void (*)(void))pac_peek};
    roms[0x34] = 0x5A;
    row("pac_init", ((init_call)calls[0])(&board, roms, sizeof roms, ABOVE | 0x1200 | PAC_SWITCHES) == PAC_DONE &&
                        pac_init(&other, roms, sizeof roms, PAC_SWITCHES) == PAC_DONE && memcmp(&board, &other, sizeof board) == 0);
    row("pac_hold", ((hold_call)calls[1])(&board, ABOVE | PAC_COIN1, ABOVE | 0xFFFF) == PAC_DONE && pac_hold(&other, PAC_COIN1, 0xFFFF) == PAC_DONE &&
                        memcmp(&board, &other, sizeof board) == 0);
    row("pac_peek", ((peek_call)calls[2])(&board, roms, sizeof roms, ABOVE | 0x34, &one, 1) == PAC_DONE &&
                        pac_peek(&board, roms, sizeof roms, 0x34, &two, 1) == PAC_DONE && one == two && one == 0x5A);
    printf("%u passed, %u failed\n", passed, failed);
    return failed != 0;
}
