/* Reads what the players in hosts/libretro and hosts/sdl are handed into a ROM block: a block as hosts/roms.py makes it, a manifest whose name
 * ends in .toml, or a source whose name ends in .asm, beside which the manifest set.toml has its pictures, colours and sounds.
 *
 * Of TOML it reads tables with `file = "NAME"` and `sha1 = "DIGITS"`, comments and empty lines, and refuses all else; hosts/roms.py reads the
 * rest, and makes a block of it. A part has to be a plain file in the manifest's own folder. */
#ifndef PAC_CONTENT_H
#define PAC_CONTENT_H

#include "../pacboard.h"
#include "../pacsource.h"

#include <stdbool.h>
#include <stdio.h>
#include <stdlib.h>
#include <string.h>
#include <sys/stat.h>

enum { CONTENT_LARGEST = 1 << 24, CONTENT_LONGEST = 4096, CONTENT_QUARTERS = 4, CONTENT_PARTS = 9, CONTENT_LINE = 512 };

static const struct content_part {
    const char *table;
    size_t size;
} content_parts[CONTENT_PARTS] = {{"[program", 4096}, {"[program", 4096}, {"[program", 4096}, {"[program", 4096}, {"tiles", 4096},
                                  {"sprites", 4096},   {"colours", 32},     {"lookup", 256},     {"wave", 256}};

typedef struct content_sum {
    uint32_t words[5];
} content_sum;

/* A word turned to the left by so many bits. */
static inline uint32_t content_turned(uint32_t word, int bits)
{
    return word << bits | word >> (32 - bits);
}

/* Adds a block of 64 bytes to a SHA-1, by FIPS 180-4. */
static inline void content_add(content_sum *sum, const uint8_t *block)
{
    static const uint32_t keys[4] = {0x5A827999, 0x6ED9EBA1, 0x8F1BBCDC, 0xCA62C1D6};
    uint32_t words[80], a = sum->words[0], b = sum->words[1], c = sum->words[2], d = sum->words[3], e = sum->words[4];
    for (int at = 0; at < 80; at++) {
        const uint8_t *byte = block + 4 * (at & 15);
        words[at] = at < 16 ? (uint32_t)byte[0] << 24 | (uint32_t)byte[1] << 16 | (uint32_t)byte[2] << 8 | byte[3]
                            : content_turned(words[at - 3] ^ words[at - 8] ^ words[at - 14] ^ words[at - 16], 1);
        uint32_t mixed = at < 20 ? (b & c) | (~b & d) : at < 40 || at >= 60 ? b ^ c ^ d : (b & c) | (b & d) | (c & d);
        uint32_t next = content_turned(a, 5) + mixed + e + keys[at / 20] + words[at];
        e = d, d = c, c = content_turned(b, 30), b = a, a = next;
    }
    sum->words[0] += a, sum->words[1] += b, sum->words[2] += c, sum->words[3] += d, sum->words[4] += e;
}

/* Whether bytes, 4,096 at most, have the SHA-1 that 40 hexadecimal digits say, in either case. */
static inline bool content_has_sum(const uint8_t *bytes, size_t size, const char *digits)
{
    uint8_t whole[4096 + 72] = {0};
    content_sum sum = {{0x67452301, 0xEFCDAB89, 0x98BADCFE, 0x10325476, 0xC3D2E1F0}};
    size_t all = (size + 9 + 63) / 64 * 64;
    char found[41];
    memcpy(whole, bytes, size), whole[size] = 0x80, whole[all - 2] = (uint8_t)(8 * size >> 8), whole[all - 1] = (uint8_t)(8 * size);
    for (size_t at = 0; at < all; at += 64)
        content_add(&sum, whole + at);
    snprintf(found, sizeof found, "%08x%08x%08x%08x%08x", sum.words[0], sum.words[1], sum.words[2], sum.words[3], sum.words[4]);
    for (size_t at = 0; at < 40; at++)
        if ((digits[at] >= 'A' && digits[at] <= 'F' ? digits[at] + 32 : digits[at]) != found[at])
            return false;
    return digits[40] == '\0';
}

/* Reads a plain file of so many bytes at most: how many there are; -1 where it can't be read, isn't plain, or is larger. */
static inline long content_file(const char *path, uint8_t *bytes, size_t most)
{
    struct stat about;
    FILE *file = lstat(path, &about) == 0 && S_ISREG(about.st_mode) ? fopen(path, "rb") : NULL;
    long length = file == NULL ? -1 : (long)fread(bytes, 1, most, file);
    if (file != NULL && (getc(file) != EOF || ferror(file)))
        length = -1;
    if (file != NULL)
        fclose(file);
    return length;
}

/* The path of a file in the folder of another; false where it is too long. */
static inline bool content_beside(const char *path, const char *name, char *beside)
{
    const char *slash = strrchr(path, '/');
    int folder = slash == NULL ? 0 : (int)(slash - path + 1), length = snprintf(beside, CONTENT_LONGEST, "%.*s%s", folder, path, name);
    return length > 0 && length < CONTENT_LONGEST;
}

/* Reads the files and digests that a manifest names: which are there, of the parts in the order of the block. */
static inline bool content_tables(const char *path, char files[CONTENT_PARTS][CONTENT_LINE], char sums[CONTENT_PARTS][CONTENT_LINE])
{
    char line[CONTENT_LINE], word[CONTENT_LINE], more[CONTENT_LINE];
    int part = -1, quarters = 0;
    bool is_so = true;
    FILE *file = fopen(path, "rb");
    while (file != NULL && is_so && fgets(line, sizeof line, file) != NULL) {
        more[0] = '\0';
        if (sscanf(line, " [%511[^]\n]]%511s", word, more) >= 1) {
            for (part = CONTENT_PARTS - 1; part >= CONTENT_QUARTERS && strcmp(word, content_parts[part].table) != 0; part--)
                continue;
            if (strcmp(word, "[program") == 0 && more[0] == ']' && quarters < CONTENT_QUARTERS)
                part = quarters++, memmove(more, more + 1, strlen(more));
            else if (strcmp(word, "timing") == 0)
                part = -1;
            else
                is_so = part >= CONTENT_QUARTERS && files[part][0] == '\0';
        } else if (sscanf(line, " file = \"%511[^\"\\\n]\" %511s", word, more) >= 1) {
            is_so = part < 0 || files[part][0] == '\0';
            if (part >= 0 && is_so)
                strcpy(files[part], word);
        } else if (sscanf(line, " sha1 = \"%511[^\"\\\n]\" %511s", word, more) >= 1) {
            is_so = part < 0 || sums[part][0] == '\0';
            if (part >= 0 && is_so)
                strcpy(sums[part], word);
        } else {
            sscanf(line, " %1s", more);
        }
        is_so = is_so && (more[0] == '\0' || more[0] == '#') && strlen(line) < sizeof line - 1;
    }
    if (file != NULL)
        fclose(file);
    return file != NULL && is_so;
}

/* Reads the parts of a manifest into a block, the program only where the manifest has to have it; what is wrong, and NULL where nothing is. */
static inline const char *content_manifest(const char *path, uint8_t *roms, bool has_program)
{
    static char files[CONTENT_PARTS][CONTENT_LINE], sums[CONTENT_PARTS][CONTENT_LINE];
    char beside[CONTENT_LONGEST];
    memset(files, 0, sizeof files), memset(sums, 0, sizeof sums);
    if (!content_tables(path, files, sums))
        return "the manifest can't be read: tables with file and sha1 alone are taken, hosts/roms.py reads others";
    size_t at = 0;
    for (int part = 0; part < CONTENT_PARTS; at += content_parts[part++].size) {
        bool is_given = part < CONTENT_QUARTERS && has_program;
        if (is_given != (files[part][0] == '\0') || strchr(files[part], '/') != NULL)
            return "the manifest names a file too few or too many, or one in another folder";
        if (is_given)
            continue;
        if (!content_beside(path, files[part], beside) || content_file(beside, roms + at, content_parts[part].size) != (long)content_parts[part].size)
            return "a file of the manifest isn't there, or has another size";
        if (sums[part][0] != '\0' && !content_has_sum(roms + at, content_parts[part].size, sums[part]))
            return "a file of the manifest has another digest";
    }
    return NULL;
}

/* Assembles a source into the program of a block, and reads the rest of it; what is wrong, and NULL where nothing is. */
static inline const char *content_source(const char *path, const uint8_t *source, size_t size, uint8_t *roms)
{
    static char told[64];
    char beside[CONTENT_LONGEST];
    static uint8_t none[1];
    pac_told found = {0};
    uint8_t *listing = none;
    uint32_t code = pac_assemble(source, size, roms, PAC_SOURCE_ROM_SIZE, none, 0, &found);
    if (code == PAC_SOURCE_ROOM && (listing = malloc(found.listing)) != NULL) {
        code = pac_assemble(source, size, roms, PAC_SOURCE_ROM_SIZE, listing, found.listing, &found);
        free(listing);
    }
    if (code == PAC_SOURCE_FAULT) {
        snprintf(told, sizeof told, found.token ? "refused A%u L%u line %u" : "refused A%u line %u", found.fault,
                 found.token ? found.token : (unsigned)found.line, (unsigned)found.line);
        return told;
    }
    if (code != PAC_SOURCE_DONE)
        return "memory ran out";
    return content_beside(path, "set.toml", beside) ? content_manifest(beside, roms, true) : "the name is too long";
}

/* Whether a name ends so. */
static inline bool content_ends(const char *name, const char *end)
{
    size_t length = strlen(name), most = strlen(end);
    return length >= most && strcmp(name + length - most, end) == 0;
}

/* Reads a ROM block, a manifest or a source into a block, which is changed only where all of it is there; what is wrong, and NULL where
 * nothing is. */
static inline const char *content_read(const char *path, uint8_t *roms)
{
    uint8_t found[PAC_ROMS_SIZE], *bytes = malloc(CONTENT_LARGEST);
    long length = bytes == NULL ? -1 : content_file(path, bytes, CONTENT_LARGEST);
    const char *wrong = NULL;
    if (length < 0)
        wrong = "the file can't be read";
    else if (content_ends(path, ".toml"))
        wrong = content_manifest(path, found, false);
    else if (content_ends(path, ".asm"))
        wrong = content_source(path, bytes, (size_t)length, found);
    else if (length == PAC_ROMS_SIZE)
        memcpy(found, bytes, PAC_ROMS_SIZE);
    else
        wrong = "this is no ROM block of 25,120 bytes, no manifest (.toml) and no source (.asm)";
    if (wrong == NULL)
        memcpy(roms, found, PAC_ROMS_SIZE);
    free(bytes);
    return wrong;
}

#endif
