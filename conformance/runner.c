/* Runs the programs of conformance/ on a core, and holds what it does against the sums.
 *
 *     runner MADE SUMS [--silicon]
 *
 * MADE is the folder that conformance/make.py wrote, SUMS the one that has opcodes.txt, sums.txt and states.txt. --silicon leaves out what a chip does
 * otherwise than UM0080 says: bits 5 and 3 of F and the flags that it calls unknown, and so the stack, the registers and RAM of states. Each thing that
 * differs is told. The last line is `N passed, M failed`, and the exit status is 0 where M is 0; 2 for other words, 3 where a file can't be read.
 */
#include <inttypes.h>
#include <stdio.h>
#include <stdlib.h>
#include <string.h>

#include "core.h"

enum { SWITCHES = 0xC9, STACK_FIRST = 0xB00, STACK_END = 0xBF0, MOST_FRAMES = 6000, CELL = 0x42, ROW = 32, COLUMNS = 28, ROWS = 28, PARTS = 8 };

static unsigned long passed, failed;
static int is_silicon;
static const char *made_folder, *sums_folder;

/* The parts of a state, as conformance/sums.py has them. */
static const struct part {
    const char *name;
    size_t first, end;
    int is_silicons; /* whether silicon may have another one */
} parts[PARTS] = {
    {"processor", 30, 58, 1},     {"counts", 58, 82, 0},          {"ram", 82, 3154, 1},     {"coordinates", 3154, 3170, 0},
    {"wave", 3170, 3202, 0},      {"accumulators", 3202, 3214, 0}, {"rest", 3214, 3224, 0}, {"picture", 3224, 67736, 0},
};

/* What a byte makes of a CRC-32. */
static uint32_t table[256];

/* Fills the table. */
static void make_table(void)
{
    for (uint32_t byte = 0; byte < 256; byte++) {
        table[byte] = byte;
        for (int bit = 0; bit < 8; bit++)
            table[byte] = table[byte] >> 1 ^ (table[byte] & 1 ? UINT32_C(0xEDB88320) : 0);
    }
}

/* CRC-32 of bytes, after that of others, which begins with 0. */
static uint32_t crc(uint32_t before, const uint8_t *bytes, size_t size)
{
    uint32_t sum = ~before;

    for (size_t at = 0; at < size; at++)
        sum = sum >> 8 ^ table[(sum ^ bytes[at]) & 255];
    return ~sum;
}

/* Counts a row, and tells one that fails. */
static void row(int is_good, const char *program, const char *what, unsigned long number, const char *name)
{
    passed += is_good != 0;
    failed += is_good == 0;
    if (!is_good)
        printf("FAILED: %s, %s %lu: %s\n", program, what, number, name);
}

/* Opens a file of a folder; without one all ends. */
static FILE *opened(const char *folder, const char *name, const char *kind)
{
    char path[4096];
    FILE *file = NULL;

    if (snprintf(path, sizeof path, "%s/%s%s", folder, name, kind) < (int)sizeof path)
        file = fopen(path, "rb");
    if (file == NULL) {
        fprintf(stderr, "runner: %s can't be read\n", path);
        exit(3);
    }
    return file;
}

/* Reads a file of a folder into a buffer: its size, which is that of the buffer at most. */
static size_t content(const char *folder, const char *name, const char *kind, uint8_t *bytes, size_t size)
{
    FILE *file = opened(folder, name, kind);
    size_t count = fread(bytes, 1, size, file);

    fclose(file);
    return count;
}

/* A board of a program, whose ROMs are read into a buffer; without one all ends. */
static void *made(const char *program, uint8_t *roms)
{
    void *core = NULL;

    if (content(made_folder, program, ".roms", roms, CORE_ROMS) == CORE_ROMS)
        core = core_make(roms, SWITCHES);
    if (core == NULL) {
        fprintf(stderr, "runner: %s: no board is made\n", program);
        exit(3);
    }
    return core;
}

/* A line of what opcodes.asm shows, in tile RAM; without blanks at its end. */
static void shown(const uint8_t *ram, int line, char *text)
{
    int length = 0;

    for (int column = 0; column < COLUMNS; column++) {
        uint8_t tile = ram[CELL + ROW * line + column];

        text[column] = tile == 0 ? ' ' : (char)tile;
        if (text[column] != ' ')
            length = column + 1;
    }
    text[length] = '\0';
}

/* Runs opcodes.asm until it has shown all lines, and compares them. */
static void try_opcodes(void)
{
    static uint8_t roms[CORE_ROMS], ram[CORE_RAM];
    char text[COLUMNS + 1], wanted[COLUMNS + 3];
    void *core = made("opcodes", roms);
    FILE *file = opened(sums_folder, "opcodes", ".txt");
    int frame = 0, line = 0, is_done = 0;

    while (frame++ < MOST_FRAMES && !is_done && core_frame(core) == 0) {
        core_ram(core, ram);
        for (int at = 0; at < ROWS; at++) {
            shown(ram, at, text);
            is_done |= strcmp(text, "DONE") == 0;
        }
    }
    core_ram(core, ram);
    for (line = 0; fgets(wanted, sizeof wanted, file) != NULL; line++) {
        size_t both = is_silicon && strlen(wanted) > 20 ? 19 : COLUMNS; /* the second CRC is that of the other bits */

        wanted[strcspn(wanted, "\n")] = '\0';
        shown(ram, line, text);
        row(strncmp(text, wanted, both) == 0, "opcodes", "line", (unsigned long)line + 1, text);
        if (strncmp(text, wanted, both) != 0)
            printf("    and not %s\n", wanted);
    }
    fclose(file);
    core_free(core);
}

/* The inputs that are held in a frame, the first of which is 1. */
static uint16_t held_in(const char *program, unsigned long frame)
{
    uint8_t bytes[2] = {0, 0};
    FILE *file = opened(made_folder, program, ".held");

    if (fseek(file, (long)(2 * (frame - 1)), SEEK_SET) == 0 && fread(bytes, 1, 2, file) != 2)
        bytes[0] = bytes[1] = 0;
    fclose(file);
    return (uint16_t)(bytes[0] | bytes[1] << 8);
}

/* Compares the sums of a frame that was run. */
static void compare_frame(void *core, const char *program, unsigned long frame, const uint32_t *wanted)
{
    static uint8_t rgb[CORE_RGB], ram[CORE_RAM];
    static int16_t samples[CORE_SAMPLES + 2];
    size_t count = core_samples(core, samples);
    uint32_t sum = 0;

    core_picture(core, rgb);
    core_ram(core, ram);
    row(crc(0, rgb, sizeof rgb) == wanted[0], program, "frame", frame, "picture");
    for (size_t at = 0; at < count && at < CORE_SAMPLES; at++) {
        uint8_t bytes[2] = {(uint8_t)((uint16_t)samples[at] & 255), (uint8_t)((uint16_t)samples[at] >> 8)};

        sum = crc(sum, bytes, 2);
    }
    if (count != 0)
        row(count == CORE_SAMPLES && sum == wanted[1], program, "frame", frame, "samples");
    sum = crc(crc(0, ram, STACK_FIRST), ram + STACK_END, CORE_RAM - STACK_END);
    row(sum == wanted[2], program, "frame", frame, "RAM without the stack");
    if (!is_silicon)
        row(crc(0, ram, sizeof ram) == wanted[3], program, "frame", frame, "all RAM");
}

/* Runs each program frame by frame. */
static void try_programs(void)
{
    static uint8_t roms[CORE_ROMS];
    char line[256], program[64], running[64] = "";
    unsigned long frame;
    uint32_t wanted[4];
    void *core = NULL;
    FILE *file = opened(sums_folder, "sums", ".txt");

    while (fgets(line, sizeof line, file) != NULL) {
        if (line[0] == '#' || sscanf(line, "%63s %lu %" SCNx32 " %" SCNx32 " %" SCNx32 " %" SCNx32, program, &frame, &wanted[0], &wanted[1],
                                     &wanted[2], &wanted[3]) != 6)
            continue;
        if (strcmp(program, running) != 0) {
            if (core != NULL)
                core_free(core);
            core = made(program, roms);
            memcpy(running, program, sizeof running);
        }
        core_hold(core, held_in(program, frame));
        row(core_frame(core) == 0, program, "frame", frame, "the board stops");
        compare_frame(core, program, frame, wanted);
    }
    if (core != NULL)
        core_free(core);
    fclose(file);
}

/* Runs a state for a frame, and compares the sums of what comes of it: whether the core takes states. */
static int try_state(const char *program, unsigned long number, const uint32_t *wanted)
{
    static uint8_t roms[CORE_ROMS], state[CORE_STATE];
    char name[128];
    void *core = made(program, roms);
    int is_taken;

    snprintf(name, sizeof name, "%s-%lu", program, number);
    is_taken = content(made_folder, name, ".state", state, sizeof state) == CORE_STATE && core_load(core, state) == 0;
    if (is_taken) {
        row(core_frame(core) == 0 && core_save(core, state) == 0, program, "state", number, "the board stops");
        for (int at = 0; at < PARTS; at++)
            if (!(is_silicon && parts[at].is_silicons))
                row(crc(0, state + parts[at].first, parts[at].end - parts[at].first) == wanted[at], program, "state", number, parts[at].name);
    }
    core_free(core);
    return is_taken;
}

/* Runs each state. */
static void try_states(void)
{
    char line[256], program[64];
    unsigned long number, left_out = 0;
    FILE *file = opened(sums_folder, "states", ".txt");

    while (fgets(line, sizeof line, file) != NULL) {
        uint32_t wanted[PARTS];
        int used = 0, more = 0, count = 0;

        if (line[0] == '#' || sscanf(line, "%63s %lu%n", program, &number, &used) != 2)
            continue;
        while (count < PARTS && sscanf(line + used, "%" SCNx32 "%n", &wanted[count], &more) == 1) {
            used += more;
            count++;
        }
        if (count == PARTS)
            left_out += !try_state(program, number, wanted);
    }
    if (left_out != 0)
        printf("%lu states are left out: the core takes none\n", left_out);
    fclose(file);
}

int main(int count, char **words)
{
    is_silicon = count == 4 && strcmp(words[3], "--silicon") == 0;
    if (count != 3 && !is_silicon) {
        fprintf(stderr, "runner: usage: runner MADE SUMS [--silicon]\n");
        return 2;
    }
    made_folder = words[1];
    sums_folder = words[2];
    make_table();
    printf("%s\n", core_name());
    fflush(stdout);
    try_opcodes();
    try_programs();
    try_states();
    printf("%lu passed, %lu failed\n", passed, failed);
    return failed != 0;
}
