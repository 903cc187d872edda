/* Tries the calls of the assembler's library as a host makes them, with each call for memory refused in turn.
 *
 *   source FILE..       tries them by hand, and then refuses memory to the assembly of each of these sources: the last line is
 *                       `N passed, M failed`, and the exit status is 0 where M is 0
 *   source asm          assembles sources from standard input, each after its length in 4 bytes, the low one first, and writes of each
 *                       what the call answers, what it tells, the ROM and the listing
 *   source dis FILE     disassembles a file of at most 65,536 bytes, as `pacboard dis` does
 *   source time FILE    tells how long a source takes, the least of 20 times, in milliseconds
 *
 * What is expected is worked out by hand from docs/ASSEMBLER.md and docs/FORMATS.md. It is linked with -Wl,--wrap for malloc, realloc and
 * free, so that the library's calls for memory come here first.
 */
#define _DEFAULT_SOURCE
#include "../pacsource.h"

#include <stdio.h>
#include <stdlib.h>
#include <string.h>
#include <time.h>

enum { LONGEST = 1 << 24, ROOM = 1 << 26, UNTOUCHED = 0x55, BEYOND = 64, TIMES = 20 };

void *__real_malloc(size_t size);
void *__real_realloc(void *block, size_t size);
void __real_free(void *block);
void *__wrap_malloc(size_t size);
void *__wrap_realloc(void *block, size_t size);
void __wrap_free(void *block);

static int passed, failed;
static long asked, refused, last; /* calls for memory so far; the first and the last that are refused, 0 where none is */
static long held;                 /* blocks that aren't given back */
static uint8_t rom[PAC_SOURCE_ROM_SIZE + 1], *source, *listing;
static pac_told told;

/* Whether this call for memory is one that is refused. */
static int is_refused(void)
{
    asked++;
    return refused != 0 && asked >= refused && asked <= last;
}

void *__wrap_malloc(size_t size)
{
    void *block = is_refused() ? NULL : __real_malloc(size);
    held += block != NULL;
    return block;
}

void *__wrap_realloc(void *block, size_t size)
{
    void *found = is_refused() ? NULL : __real_realloc(block, size);
    held += block == NULL && found != NULL;
    return found;
}

void __wrap_free(void *block)
{
    held -= block != NULL;
    __real_free(block);
}

/* Counts what was tried, and names what failed. */
static void row(const char *what, int is_so)
{
    passed += is_so != 0, failed += is_so == 0;
    if (!is_so)
        printf("FAILED: %s\n", what);
}

/* Whether all of some bytes are those that nobody has written. */
static int is_untouched(const uint8_t *bytes, size_t size)
{
    for (size_t at = 0; at < size; at++)
        if (bytes[at] != UNTOUCHED)
            return 0;
    return 1;
}

/* Whether this is told, and nothing else. */
static int tells(uint64_t size, uint32_t line, unsigned fault, unsigned token)
{
    return told.listing == size && told.line == line && told.fault == fault && told.token == token;
}

/* Assembles a source, into a listing with so much room, with all that it may write filled before. */
static uint32_t assemble(const uint8_t *text, size_t size, size_t rom_size, size_t room)
{
    memset(rom, UNTOUCHED, sizeof rom), memset(&told, UNTOUCHED, sizeof told), memset(listing, UNTOUCHED, room + BEYOND);
    asked = held = 0;
    return pac_assemble_checked(text, size, rom, rom_size, listing, room, &told);
}

/* Whether ROM and listing are as they were. */
static int is_kept(size_t room)
{
    return is_untouched(rom, sizeof rom) && is_untouched(listing, room + BEYOND);
}

/* A program of three bytes. */
static const char small[] = "START: LD A,42H ; a comment\n HALT\n";
static const char small_listing[] = "00001 0000 3E42     START: LD A,42H ; a comment\n00002 0002 76        HALT\nSYMBOLS\nSTART 0\n";

/* A program, its listing, and too little room for it. */
static void try_small(void)
{
    const uint8_t *text = (const uint8_t *)small;
    size_t size = sizeof small_listing - 1;
    for (size_t room = size; room <= size + BEYOND; room += BEYOND) {
        row("a program", assemble(text, sizeof small - 1, PAC_SOURCE_ROM_SIZE, room) == PAC_SOURCE_DONE && tells(size, 0, 0, 0));
        row("its ROM", rom[0] == 0x3E && rom[1] == 0x42 && rom[2] == 0x76 && rom[3] == 0 && rom[16383] == 0 && rom[16384] == UNTOUCHED);
        row("its listing", memcmp(listing, small_listing, size) == 0 && is_untouched(listing + size, room + BEYOND - size));
        row("no block is kept", held == 0 && asked > 0);
    }
    for (size_t room = 0; room < size; room++) {
        uint32_t code = assemble(text, sizeof small - 1, PAC_SOURCE_ROM_SIZE, room);
        row("too little room", code == PAC_SOURCE_ROOM && tells(size, 0, 0, 0) && is_kept(room));
    }
    for (size_t length = PAC_SOURCE_ROM_SIZE - 1; length <= PAC_SOURCE_ROM_SIZE + 1; length += 2)
        row("another ROM length", assemble(text, sizeof small - 1, length, size) == PAC_SOURCE_LENGTH && tells(0, 0, 0, 0) && is_kept(size));
    row("a ROM without a byte", assemble(text, sizeof small - 1, 0, size) == PAC_SOURCE_LENGTH && tells(0, 0, 0, 0) && is_kept(size));
    row("a source without a byte", assemble(text, 0, PAC_SOURCE_ROM_SIZE, size) == PAC_SOURCE_DONE && tells(8, 0, 0, 0));
    row("its listing", memcmp(listing, "SYMBOLS\n", 8) == 0 && is_untouched(listing + 8, size + BEYOND - 8));
    row("its ROM", rom[0] == 0 && rom[16383] == 0);
}

/* A source for each fault, with its line. */
static void try_faults(void)
{
    static const struct {
        const char *text;
        uint32_t line;
        uint16_t fault, token;
    } rows[] = {
        {" NOP\n ?\n", 2, 1, 1}, {" DEFB 12X\n", 1, 1, 2}, {"\n\n DEFM 'A\n", 3, 1, 3}, {" LD\n", 1, 2, 0}, {"X: NOP\nX: NOP\n", 2, 3, 0},
        {" ORG X\nX: NOP\n", 1, 4, 0}, {" ORG 4001H\n", 1, 5, 0}, {" NOP\n ORG 0\n NOP\n", 3, 6, 0}, {" DEFB X\n", 1, 8, 0},
        {" DEFB 256\n", 1, 9, 0}, {" DEFB 1/0\n", 1, 10, 0}, {" IF 1\n IF 1\n IF 1\n IF 1\n IF 1\n IF 1\n IF 1\n IF 1\n IF 1\n"
         " ENDIF\n ENDIF\n ENDIF\n ENDIF\n ENDIF\n ENDIF\n ENDIF\n ENDIF\n ENDIF\n", 9, 12, 0}, {" ELSE\n", 1, 13, 0}, {" IF 1\n", 1, 14, 0},
    };
    for (size_t at = 0; at < sizeof rows / sizeof *rows; at++) {
        uint32_t code = assemble((const uint8_t *)rows[at].text, strlen(rows[at].text), PAC_SOURCE_ROM_SIZE, 1000);
        int is_so = code == PAC_SOURCE_FAULT && tells(0, rows[at].line, rows[at].fault, rows[at].token);
        row(rows[at].text, is_so && is_kept(1000) && held == 0);
    }
    memset(source, ' ', 256), source[256] = '\n';
    row("a long line", assemble(source, 257, PAC_SOURCE_ROM_SIZE, 1000) == PAC_SOURCE_FAULT && tells(0, 1, 1, 4) && is_kept(1000));
    memset(source, '\n', 65536);
    row("too many lines", assemble(source, 65536, PAC_SOURCE_ROM_SIZE, 1000) == PAC_SOURCE_FAULT && tells(0, 65536, 7, 0) && is_kept(1000));
}

/* Instructions, bytes that are none, and no byte. */
static void try_instructions(void)
{
    static const struct {
        uint8_t bytes[4];
        size_t length;
        uint16_t at;
        uint32_t size;
        const char *text;
    } rows[] = {
        {{0x00}, 1, 0, 1, "NOP"}, {{0xDD, 0x36, 0x05, 0xFF}, 4, 0, 4, "LD (IX+05H),0FFH"}, {{0x18, 0xFE}, 2, 0xFFFE, 2, "JR 0FFFEH"},
        {{0x18, 0x00}, 2, 0xFFFE, 2, "JR 0000H"}, {{0xED, 0x00}, 2, 0, 1, "DEFB 0EDH"}, {{0xC3, 0x00}, 2, 0, 1, "DEFB 0C3H"}, {{0}, 0, 7, 0, ""},
    };
    static const uint8_t zeros[17];
    for (size_t at = 0; at < sizeof rows / sizeof *rows; at++) {
        pac_text text;
        memset(&text, UNTOUCHED, sizeof text);
        uint32_t size = pac_disassemble_checked(rows[at].bytes, rows[at].length, rows[at].at, &text);
        size_t length = strlen(rows[at].text);
        int is_padded = memcmp(text.bytes + length, zeros, sizeof text - length) == 0;
        row(rows[at].text, size == rows[at].size && memcmp(text.bytes, rows[at].text, length) == 0 && is_padded);
    }
}

/* Null, by the calls that test for it. */
static void try_null(void)
{
    uint8_t byte = UNTOUCHED;
    pac_text text;
    int is_so = pac_assemble_checked(NULL, 0, rom, PAC_SOURCE_ROM_SIZE, listing, 1, &told) == PAC_SOURCE_NULL;
    is_so &= pac_assemble_checked(&byte, 0, NULL, PAC_SOURCE_ROM_SIZE, listing, 1, &told) == PAC_SOURCE_NULL;
    is_so &= pac_assemble_checked(&byte, 0, rom, PAC_SOURCE_ROM_SIZE, NULL, 1, &told) == PAC_SOURCE_NULL;
    is_so &= pac_assemble_checked(&byte, 0, rom, PAC_SOURCE_ROM_SIZE, listing, 1, NULL) == PAC_SOURCE_NULL;
    row("null for a source, a ROM, a listing and what is told", is_so);
    is_so = pac_disassemble_checked(NULL, 0, 0, &text) == PAC_SOURCE_NULL && pac_disassemble_checked(&byte, 1, 0, NULL) == PAC_SOURCE_NULL;
    row("null for bytes and a text", is_so);
}

/* Reads a file: how many bytes it has. */
static size_t read_source(const char *name)
{
    FILE *file = fopen(name, "rb");
    if (file == NULL)
        perror(name), exit(3);
    size_t size = fread(source, 1, LONGEST, file);
    fclose(file);
    return size;
}

/* Refuses each call for memory that an assembly makes, alone and with all after it: want of memory is told, and nothing is changed; or all is
 * as it is without a refusal, where the assembler can do without that memory. No block is kept. */
static void refuse(const char *name, size_t size)
{
    static uint8_t whole[PAC_SOURCE_ROM_SIZE + 1];
    uint32_t wanted = assemble(source, size, PAC_SOURCE_ROM_SIZE, ROOM / 8);
    pac_told wanted_told = told;
    size_t length = wanted == PAC_SOURCE_DONE ? (size_t)told.listing : 0;
    uint8_t *text = __real_malloc(length + 1);
    long calls = asked, without = 0, wrong = 0;
    if (text == NULL)
        exit(3);
    memcpy(whole, rom, sizeof rom), memcpy(text, listing, length);
    for (refused = 1; refused <= calls; refused++)
        for (int more = 0; more < 2; more++) {
            last = more ? calls : refused;
            uint32_t code = assemble(source, size, PAC_SOURCE_ROM_SIZE, length);
            int is_same = code == wanted && memcmp(&told, &wanted_told, sizeof told) == 0 && memcmp(rom, whole, sizeof rom) == 0;
            is_same = is_same && memcmp(listing, text, length) == 0 && is_untouched(listing + length, BEYOND);
            int is_told = code == PAC_SOURCE_MEMORY && tells(0, 0, 0, 0) && is_kept(length);
            without += is_same, wrong += (!is_same && !is_told) || held != 0;
        }
    refused = last = 0;
    __real_free(text);
    printf("%s: %ld calls for memory, each refused, alone and with all after it; %ld times it did without\n", name, calls, without);
    row("refused memory", wrong == 0 && calls >= 2 && without < calls);
}

/* A block of so many bytes, or none. */
static uint8_t *block_of(size_t size)
{
    uint8_t *block = __real_malloc(size + (size == 0));
    if (block == NULL)
        exit(3);
    return block;
}

/* Whether a source that is a program comes to the same where it, the ROM and the listing lie in blocks of their very sizes, of which the
 * sanitizers know the ends. */
static int is_same_in_blocks(size_t size)
{
    size_t length = (size_t)told.listing;
    uint8_t *text = block_of(size), *code = block_of(PAC_SOURCE_ROM_SIZE), *list = block_of(length);
    memcpy(text, source, size);
    int is_so = pac_assemble(text, size, code, PAC_SOURCE_ROM_SIZE, list, length, &told) == PAC_SOURCE_DONE && told.listing == length;
    is_so = is_so && memcmp(code, rom, PAC_SOURCE_ROM_SIZE) == 0 && memcmp(list, listing, length) == 0;
    __real_free(text), __real_free(code), __real_free(list);
    return is_so;
}

/* Assembles sources from standard input. */
static int assemble_all(void)
{
    uint8_t head[4];
    while (fread(head, 1, 4, stdin) == 4) {
        size_t size = head[0] | (size_t)head[1] << 8 | (size_t)head[2] << 16 | (size_t)head[3] << 24;
        if (size > LONGEST || fread(source, 1, size, stdin) != size)
            return 3;
        memset(rom, 0, sizeof rom), held = 0;
        uint32_t code = pac_assemble(source, size, rom, PAC_SOURCE_ROM_SIZE, listing, ROOM, &told);
        fwrite(&code, sizeof code, 1, stdout), fwrite(&told, sizeof told, 1, stdout), fwrite(rom, 1, PAC_SOURCE_ROM_SIZE, stdout);
        fwrite(listing, 1, code == PAC_SOURCE_DONE ? (size_t)told.listing : 0, stdout);
        if (held != 0 || (code == PAC_SOURCE_DONE && !is_same_in_blocks(size)))
            return 4;
    }
    return 0;
}

/* Disassembles a file. */
static int disassemble(const char *name)
{
    size_t size = read_source(name);
    for (size_t at = 0; at < size;) {
        pac_text text;
        char codes[9] = "";
        uint32_t count = pac_disassemble(source + at, size - at, (uint16_t)at, &text);
        for (uint32_t byte = 0; byte < count && byte < 4; byte++)
            snprintf(codes + 2 * byte, 3, "%02X", source[at + byte]);
        printf("%04X %-8s %s\n", (unsigned)at & 0xFFFF, codes, (const char *)text.bytes);
        at += count != 0 ? count : size;
    }
    return 0;
}

/* Tells how long a source takes. */
static int tell_time(const char *name)
{
    size_t size = read_source(name);
    double least = 1e9;
    uint32_t code = PAC_SOURCE_DONE;
    for (int time = 0; time < TIMES; time++) {
        struct timespec from, to;
        clock_gettime(CLOCK_MONOTONIC, &from);
        code = pac_assemble(source, size, rom, PAC_SOURCE_ROM_SIZE, listing, ROOM, &told);
        clock_gettime(CLOCK_MONOTONIC, &to);
        double spent = 1e3 * (double)(to.tv_sec - from.tv_sec) + (double)(to.tv_nsec - from.tv_nsec) / 1e6;
        least = spent < least ? spent : least;
    }
    printf("%s: %.2f ms, answer %u\n", name, least, (unsigned)code);
    return 0;
}

int main(int count, char **words)
{
    source = __real_malloc(LONGEST), listing = __real_malloc((size_t)ROOM + BEYOND);
    if (source == NULL || listing == NULL)
        return 3;
    if (count == 2 && strcmp(words[1], "asm") == 0)
        return assemble_all();
    if (count == 3 && strcmp(words[1], "dis") == 0)
        return disassemble(words[2]);
    if (count == 3 && strcmp(words[1], "time") == 0)
        return tell_time(words[2]);
    try_small(), try_faults(), try_instructions(), try_null();
    for (int at = 1; at < count; at++)
        refuse(words[at], read_source(words[at]));
    printf("%d passed, %d failed\n", passed, failed);
    return failed != 0;
}
