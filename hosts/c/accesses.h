/* What a step of the Z80 reads and writes as data, by the registers before it and the four bytes at PC: for trying what a live board tells of
 * accesses. Written by the manual (Zilog Z80 CPU User Manual UM0080, "Z80 Instruction Description"), and not by the board's definitions.
 */
#ifndef ACCESSES_H
#define ACCESSES_H

#include "../pacboard.h"

/* Addresses in the order in which the step comes to them. */
typedef struct accesses {
    int reads, writes;
    uint16_t read[2], written[2];
} accesses;

static inline void read_cells(accesses *it, uint16_t at, int count)
{
    while (count-- > 0)
        it->read[it->reads++] = at++;
}

static inline void write_cells(accesses *it, uint16_t at, int count)
{
    while (count-- > 0)
        it->written[it->writes++] = at++;
}

/* What PUSH, CALL, RST and an interrupt write: the high byte first. */
static inline void push_cells(accesses *it, uint16_t sp)
{
    write_cells(it, (uint16_t)(sp - 1), 1), write_cells(it, (uint16_t)(sp - 2), 1);
}

/* Whether a condition is met: NZ, Z, NC, C, PO, PE, P, M. */
static inline int is_met(uint8_t flags, int condition)
{
    static const uint8_t bits[] = {0x40, 0x01, 0x04, 0x80};
    return ((flags & bits[condition / 2]) != 0) == condition % 2;
}

static inline uint16_t pair_of(uint8_t high, uint8_t low)
{
    return (uint16_t)(high << 8 | low);
}

/* The codes that begin with EDH. */
static inline accesses extended_accesses(const pac_registers *now, const uint8_t *code)
{
    accesses it = {0};
    uint16_t hl = pair_of(now->h, now->l), de = pair_of(now->d, now->e), word = pair_of(code[3], code[2]);
    if ((code[1] & 0xCF) == 0x43)
        write_cells(&it, word, 2); /* LD (nn),dd */
    else if ((code[1] & 0xCF) == 0x4B)
        read_cells(&it, word, 2); /* LD dd,(nn) */
    else if (code[1] == 0x45 || code[1] == 0x4D)
        read_cells(&it, now->sp, 2); /* RETN, RETI */
    else if (code[1] == 0x67 || code[1] == 0x6F)
        read_cells(&it, hl, 1), write_cells(&it, hl, 1); /* RRD, RLD */
    else if ((code[1] & 0xE7) == 0xA0)
        read_cells(&it, hl, 1), write_cells(&it, de, 1); /* LDI and its kin */
    else if ((code[1] & 0xE7) == 0xA1 || (code[1] & 0xE7) == 0xA3)
        read_cells(&it, hl, 1); /* CPI, OUTI and their kin */
    else if ((code[1] & 0xE7) == 0xA2)
        write_cells(&it, hl, 1); /* INI and its kin */
    return it;
}

/* The codes 00H to 3FH, where (HL) or what a prefix makes of it is a cell, and nn a word. */
static inline accesses loading_accesses(const pac_registers *now, uint8_t code, uint16_t cell, uint16_t word)
{
    accesses it = {0};
    switch (code) {
    case 0x02: write_cells(&it, pair_of(now->b, now->c), 1); break;
    case 0x12: write_cells(&it, pair_of(now->d, now->e), 1); break;
    case 0x0A: read_cells(&it, pair_of(now->b, now->c), 1); break;
    case 0x1A: read_cells(&it, pair_of(now->d, now->e), 1); break;
    case 0x22: write_cells(&it, word, 2); break;
    case 0x2A: read_cells(&it, word, 2); break;
    case 0x32: write_cells(&it, word, 1); break;
    case 0x3A: read_cells(&it, word, 1); break;
    case 0x34:
    case 0x35: read_cells(&it, cell, 1), write_cells(&it, cell, 1); break;
    case 0x36: write_cells(&it, cell, 1); break;
    }
    return it;
}

/* The codes C0H to FFH. */
static inline accesses stack_accesses(const pac_registers *now, uint8_t code)
{
    accesses it = {0};
    if (code == 0xE3) /* EX (SP),HL writes the high byte first */
        read_cells(&it, now->sp, 2), write_cells(&it, (uint16_t)(now->sp + 1), 1), write_cells(&it, now->sp, 1);
    else if ((code & 0xCF) == 0xC1 || code == 0xC9 || (code % 8 == 0 && is_met(now->f, code / 8 % 8)))
        read_cells(&it, now->sp, 2);
    else if ((code & 0xCF) == 0xC5 || code == 0xCD || code % 8 == 7 || (code % 8 == 4 && is_met(now->f, code / 8 % 8)))
        push_cells(&it, now->sp);
    return it;
}

/* The instruction at PC. */
static inline accesses accesses_of(const pac_registers *now, const uint8_t *code)
{
    accesses it = {0};
    int is_indexed = code[0] == 0xDD || code[0] == 0xFD;
    uint16_t cell = pair_of(now->h, now->l);
    if (is_indexed)
        cell = (uint16_t)((code[0] == 0xDD ? now->ix : now->iy) + (int8_t)code[2]);
    if (code[0] == 0xED)
        return extended_accesses(now, code);
    code += is_indexed;
    if (code[0] == 0xCB) {
        uint8_t what = code[1 + is_indexed];
        if (is_indexed || what % 8 == 6)
            read_cells(&it, cell, 1), write_cells(&it, cell, what / 64 != 1);
    } else if (code[0] < 0x40)
        return loading_accesses(now, code[0], cell, pair_of(code[2], code[1]));
    else if (code[0] < 0xC0 && code[0] != 0x76)
        read_cells(&it, cell, code[0] % 8 == 6), write_cells(&it, cell, code[0] / 8 == 14);
    else if (code[0] >= 0xC0)
        return stack_accesses(now, code[0]);
    return it;
}

/* An interrupt's acceptance, which in mode 2 reads where the vector points. */
static inline accesses acceptance_accesses(const pac_registers *now, uint8_t vector)
{
    accesses it = {0};
    push_cells(&it, now->sp);
    read_cells(&it, pair_of(now->i, vector), now->interrupt_mode == 2 ? 2 : 0);
    return it;
}

#endif
