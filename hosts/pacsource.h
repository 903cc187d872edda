/* The proved assembler and disassembler as a C library.
 * Made by tools/make/make-header from the declarations of crates/pac_source and from the definitions that their contracts cite.
 *
 * The library keeps nothing between calls. The memory that a call takes is the host's: it calls malloc, realloc and free, and gives back all
 * that it took before it ends. Calls in different threads don't touch. docs/HOSTS.md goes through a host of one's own.
 *
 * pac_assemble answers a code. 0 is 'done'. At any other code neither the ROM nor the listing is changed.
 *
 * What is trusted, for no library can test it: that pointers aren't null (also of a buffer without a byte) and are those of this header's
 * types, that a length is that of its buffer, that no two buffers of a call share a byte, and that malloc, realloc and free are one heap's, whose
 * blocks lie as C has them lie. The calls whose names end with `_checked` test for null. Any bytes may stand in a source.
 */
#ifndef PACSOURCE_H
#define PACSOURCE_H

#include <stddef.h>
#include <stdint.h>

#ifdef __cplusplus
extern "C" {
#endif

/* What pac_assemble answers. */
enum {
    PAC_SOURCE_DONE = 0,
    PAC_SOURCE_LENGTH = 1, /* the ROM has another length than 16,384 bytes */
    PAC_SOURCE_ROOM = 4,   /* the listing has so many bytes, and there is less room */
    PAC_SOURCE_MEMORY = 5, /* memory ran out */
    PAC_SOURCE_FAULT = 6,  /* the source has a fault */
    PAC_SOURCE_NULL = 100, /* a pointer is null: by the calls with `_checked` alone */
};

/* Sizes in bytes. */
enum {
    PAC_SOURCE_ROM_SIZE = 16384,
};

/* What is told of a source. What isn't to be told is 0. */
typedef struct pac_told {
    uint64_t listing; /* the bytes of its listing, where it is a program */
    uint32_t line;    /* the line of its fault, from 1 */
    uint16_t fault;   /* the number of its fault: 1 to 10 and 12 to 14 for A1 to A10 and A12 to A14 */
    uint16_t token;   /* what is no token, where the fault is A1: 1 to 4 for L1 to L4 */
} pac_told;

/* The text of an instruction, in capitals, with zeros after it: one at least, as C has a text. */
typedef struct pac_text {
    uint8_t bytes[17];
} pac_text;

/* Assembles a source: the bytes of its program go to `rom`, and its listing to the head of `listing`, whose rest stays. The listing has a
 * row for each line of the source, with its address and its first four bytes, further rows where a line has more, and then the symbols, as
 * docs/FORMATS.md says. `told->listing` is how many bytes it has.
 * PAC_SOURCE_LENGTH: `rom_length` isn't PAC_SOURCE_ROM_SIZE. PAC_SOURCE_MEMORY. PAC_SOURCE_FAULT: the source has a fault, the one that
 * `pacboard asm` tells; `told` has its line and its number, docs/ASSEMBLER.md says what is wrong. PAC_SOURCE_ROOM: `listing` has less room
 * than `told->listing` bytes. */
uint32_t pac_assemble(const uint8_t *source, size_t source_length, uint8_t *rom, size_t rom_length, uint8_t *listing, size_t capacity,
                      pac_told *told);

/* Writes the text of the instruction that some bytes begin with, the first of them at an address, and answers how many of the bytes it has;
 * a byte that begins no instruction is told as DEFB. Of no bytes the text has none, and the answer is 0. */
uint32_t pac_disassemble(const uint8_t *bytes, size_t bytes_length, uint16_t address, pac_text *told);

/* The same calls, which answer PAC_SOURCE_NULL where a pointer is null, and else what the call answers. */

static inline uint32_t pac_assemble_checked(const uint8_t *source, size_t source_length, uint8_t *rom, size_t rom_length, uint8_t *listing,
                                            size_t capacity, pac_told *told)
{
    return source && rom && listing && told ? pac_assemble(source, source_length, rom, rom_length, listing, capacity, told)
                                            : (uint32_t)PAC_SOURCE_NULL;
}

static inline uint32_t pac_disassemble_checked(const uint8_t *bytes, size_t bytes_length, uint16_t address, pac_text *told)
{
    return bytes && told ? pac_disassemble(bytes, bytes_length, address, told) : (uint32_t)PAC_SOURCE_NULL;
}

#ifdef __cplusplus
}
static_assert(sizeof(pac_told) == 16 && sizeof(pac_text) == 17, "the library's layout");
#else
_Static_assert(sizeof(pac_told) == 16 && sizeof(pac_text) == 17, "the library's layout");
#endif

#endif
