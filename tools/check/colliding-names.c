/* Prints names of the assembler, a line each, that lie at one place of a table hashed as the kit's maps are where they are given no seed.
 *
 *   colliding-names COUNT
 *
 * The kit's FoldHasher has a fixed start. Each write joins its bytes to the state by xor, multiplies that by a number to 128 bits, and joins
 * the halves by xor; of a name the length is written, in eight bytes, and then each byte by itself. The table takes 32 bits of it: the top
 * eight are a mark, for which it looks in twelve lanes at once and compares the names of those that have it, and the low ones say in which
 * group a search begins. A full group sends it on to the next. So the names that are printed have the least two marks, which are one to the
 * table, and begin in the first 64 groups of each table of 64 or more: a search among them compares a name with half of all others.
 */
#include <stdint.h>
#include <stdio.h>
#include <stdlib.h>
#include <string.h>

enum { LENGTH = 10, GROUPS = 64 }; /* bytes of a name; groups */

static const uint64_t START = 0x243f6a8885a308d3, MULTIPLIER = 0x9e3779b97f4a7c15;
static const char LETTERS[] = "ABCDEFGHIJKLMNOPQRSTUVWXYZabcdefghijklmnopqrstuvwxyz0123456789_";

static char name[LENGTH + 1] = "Q"; /* no reserved word begins so */
static long wanted;

/* The state after a write of so many bytes, up to eight, as one number. */
static uint64_t after(uint64_t state, uint64_t bytes, uint64_t count)
{
    __uint128_t product = (__uint128_t)(state ^ bytes) * (MULTIPLIER ^ 2 * count);
    return (uint64_t)product ^ (uint64_t)(product >> 64);
}

/* Goes through all names that begin with `at` bytes of this one, whose state is given. */
static void look(int at, uint64_t state)
{
    if (at == LENGTH) {
        uint32_t hash = (uint32_t)(state ^ state >> 32);
        if (hash >> 24 < 2 && (hash & 0xFFFF) % 2048 < GROUPS)
            wanted--, puts(name);
        return;
    }
    for (const char *letter = LETTERS; *letter != 0 && wanted > 0; letter++) {
        name[at] = *letter;
        look(at + 1, after(state, (uint64_t)(unsigned char)*letter * 0x10101, 1));
    }
}

int main(int count, char **words)
{
    wanted = count == 2 ? strtol(words[1], NULL, 10) : 0;
    look(1, after(after(START, LENGTH, 8), (uint64_t)'Q' * 0x10101, 1));
    return wanted == 0 && fflush(stdout) == 0 ? 0 : 2;
}
