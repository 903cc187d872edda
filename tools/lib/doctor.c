/* Plays a ROM block on the board's C library, and tells why its picture is black or its run wrong: a line a finding. bin/doctor builds and calls it.
 *
 *   doctor ROMS HELD CLOSE
 *
 * ROMS is made by hosts/roms.py, and HELD, two bytes for each frame, by hosts/script.py. In the first CLOSE frames the board is looked at each
 * 25 microseconds, and then after each frame. What a right program may do is no finding.
 *
 * The exit status is 0 where nothing was found, 1 where something was, 3 where a file can't be read, and 4 where a call is refused.
 */
#include "../../hosts/pacboard.h"

#include <stdio.h>
#include <stdlib.h>
#include <string.h>

enum { LONGEST = 36000, SHOWN = 3, PART = 660 }; /* PART: looks in a frame */

static pac_board board;
static uint8_t roms[PAC_ROMS_SIZE + 1], held[2 * LONGEST + 1], rgba[PAC_RGBA_SIZE];
static int findings;

/* What was seen so far; a frame is counted from 1, and 0 stands for never. */
static struct {
    long frames, resets, reset_at[SHOWN], outside, stack, waits, enabled;
    uint16_t outside_pc, stack_pointer, wait_pc;
    int tiles, colours, blank_enabled, sound_on, voice, is_black, waits_without_enable, stack_in_rom, looks_without_stack;
    pac_ran ran;
} seen;

static void give_up(int status, const char *what)
{
    fprintf(stderr, "doctor: %s\n", what);
    exit(status);
}

static size_t read_file(const char *name, uint8_t *bytes, size_t most)
{
    FILE *file = fopen(name, "rb");
    size_t length = file == NULL ? 0 : fread(bytes, 1, most, file);
    if (file == NULL || ferror(file))
        give_up(3, "a file can't be read");
    fclose(file);
    return length;
}

static uint16_t word(size_t at)
{
    return (uint16_t)(board.bytes[at] | board.bytes[at + 1] << 8);
}

/* The place of an address in the block's RAM; 0 where it is none of RAM. */
static size_t place_of(uint16_t address)
{
    uint16_t at = (address & 0x1FFF) | 0x4000;
    if ((address & 0x7FFF) < 0x4000)
        return 0;
    if (at < 0x4400)
        return (size_t)PAC_AT_TILE_RAM + (at & 0x3FF);
    if (at < 0x4800)
        return (size_t)PAC_AT_COLOUR_RAM + (at & 0x3FF);
    return at >= 0x4C00 && at < 0x5000 ? (size_t)PAC_AT_WORK_RAM + (at & 0x3FF) : 0;
}

static int any(size_t at, size_t size)
{
    for (size_t place = at; place < at + size; place++)
        if (board.bytes[place] != 0)
            return 1;
    return 0;
}

/* Looks where the processor is, and where its stack. */
static void look_at_processor(long frame)
{
    uint16_t pc = word(PAC_AT_PC), pointer = word(PAC_AT_SP), below = (uint16_t)(pointer - 1);
    size_t place = place_of(pc);
    int flags = board.bytes[PAC_AT_FLAGS];
    /* code that was written to work RAM is right; what runs in cells, in RAM that nothing was written to, or where no memory is, isn't */
    int is_code = (pc & 0x7FFF) < 0x4000 || (place >= PAC_AT_WORK_RAM && any(place, place + 4 < PAC_AT_COORDINATES ? 4 : 1));
    if (!is_code && !seen.outside)
        seen.outside = frame, seen.outside_pc = pc;
    /* an untouched stack pointer is 0, and one that reads a table for a while, with interrupts off, is right */
    seen.looks_without_stack = pointer == 0 || place_of(below) ? 0 : seen.looks_without_stack + 1;
    int is_used = pointer > 0xF000 || ((flags & PAC_IFF1) && (board.bytes[PAC_AT_LATCH] & 1)) || seen.looks_without_stack >= PART;
    if (is_used && seen.looks_without_stack && !seen.stack)
        seen.stack = frame, seen.stack_pointer = pointer, seen.stack_in_rom = (below & 0x7FFF) < 0x4000;
    if (flags & PAC_IFF1 && board.bytes[PAC_AT_INTERRUPT_MODE] != 0 && !seen.enabled)
        seen.enabled = frame;
    seen.blank_enabled |= board.bytes[PAC_AT_LATCH] & 1;
    seen.sound_on |= board.bytes[PAC_AT_LATCH] & 2;
}

/* Looks at the sound: the first voice with a volume and a frequency. */
static void look_at_sound(void)
{
    const uint8_t *registers = board.bytes + PAC_AT_WAVE_REGISTERS;
    for (int voice = 0; voice < 3 && !seen.voice; voice++) {
        const uint8_t *first = registers + 0x10 + 5 * voice;
        int frequency = first[1] | first[2] | first[3] | first[4] | (voice == 0 ? first[0] : 0);
        if (first[5] != 0 && frequency != 0)
            seen.voice = voice + 1;
    }
}

/* Looks at what there is after a blank. */
static void look_at_frame(long frame)
{
    int flags = board.bytes[PAC_AT_FLAGS];
    seen.tiles |= any(PAC_AT_TILE_RAM, PAC_TILE_RAM_SIZE);
    seen.colours |= any(PAC_AT_COLOUR_RAM, PAC_COLOUR_RAM_SIZE);
    if (board.bytes[PAC_AT_WATCHDOG] == 0 && frame >= 16) {
        if (seen.resets < SHOWN)
            seen.reset_at[seen.resets] = frame;
        seen.resets++;
    }
    if (flags & PAC_HALTED && (!(flags & PAC_IFF1) || !(board.bytes[PAC_AT_LATCH] & 1)) && !board.bytes[PAC_AT_REQUEST] && !seen.waits)
        seen.waits = frame, seen.wait_pc = (uint16_t)(word(PAC_AT_PC) - 1), seen.waits_without_enable = !(flags & PAC_IFF1);
}

/* Plays a frame, in parts where it is one of the first. */
static void play_frame(long frame, uint16_t mask, int is_close)
{
    static int16_t samples[2 * PAC_FRAME_SAMPLES];
    uint32_t parts = is_close ? PART : 1, done = 0;
    if (pac_hold(&board, mask, 0xFFFF) != PAC_DONE)
        give_up(4, "pac_hold refuses");
    for (uint32_t part = 1; part <= parts && seen.ran.stop == PAC_GOES; part++) {
        uint32_t next = PAC_FRAME_MICROSECONDS * part / parts;
        if (pac_exec(&board, roms, PAC_ROMS_SIZE, next - done, samples, 2 * PAC_FRAME_SAMPLES, &seen.ran) != PAC_DONE)
            give_up(4, "pac_exec refuses");
        done = next;
        look_at_processor(frame);
    }
    look_at_sound();
    if (seen.ran.stop == PAC_GOES)
        look_at_frame(frame), seen.frames = frame;
}

/* Whether the picture is of one colour. */
static int is_of_one_colour(void)
{
    if (pac_draw(&board, roms, PAC_ROMS_SIZE, rgba, sizeof rgba) != PAC_DONE)
        give_up(4, "pac_draw refuses");
    return memcmp(rgba, rgba + 4, sizeof rgba - 4) == 0;
}

#define FOUND(...) (findings++, printf(__VA_ARGS__), putchar('\n'))

static void tell_processor(void)
{
    if (seen.stack)
        FOUND("the stack is %s: SP is %04XH in frame %ld. LD SP,4FF0H at the start puts it below the sprites", seen.stack_in_rom ? "in the ROM" : "where no RAM is",
              seen.stack_pointer, seen.stack);
    if (seen.outside)
        FOUND("it runs outside of the ROM, at %04XH in frame %ld: a jump or a RET went astray, or the program's end was passed", seen.outside_pc, seen.outside);
    if (seen.ran.stop == PAC_STOP_OPCODE)
        FOUND("it stops in frame %ld at %04XH: %02X %02X %02X %02X are no documented instruction", seen.frames + 1, seen.ran.pc, seen.ran.bytes[0],
              seen.ran.bytes[1], seen.ran.bytes[2], seen.ran.bytes[3]);
    if (seen.ran.stop == PAC_STOP_VECTOR)
        FOUND("it stops in frame %ld: interrupt mode 0 takes an RST as vector, and it is %02XH. IM 1 is what most programs want", seen.frames + 1, seen.ran.vector);
}

static void tell_interrupts(void)
{
    if (seen.waits && seen.waits_without_enable)
        FOUND("it waits for ever in the HALT at %04XH, in frame %ld: interrupts are disabled, so EI is missing before it", seen.wait_pc, seen.waits);
    else if (seen.waits)
        FOUND("it waits for ever in the HALT at %04XH, in frame %ld: the blank interrupts only while 5000H is 1", seen.wait_pc, seen.waits);
    else if (seen.enabled && !seen.blank_enabled)
        FOUND("interrupts are enabled from frame %ld on, and 5000H never gets a 1: no blank interrupts", seen.enabled);
}

static void tell_rest(void)
{
    if (seen.resets) {
        char frames[64] = "";
        for (long reset = 0; reset < seen.resets && reset < SHOWN; reset++)
            sprintf(frames + strlen(frames), "%s%ld", reset ? ", " : "", seen.reset_at[reset]);
        FOUND("the watchdog resets the board %ld time%s, in frame%s %s%s: 16 blanks go by without a write to 50C0H", seen.resets, seen.resets == 1 ? "" : "s",
              seen.resets == 1 ? "" : "s", frames, seen.resets > SHOWN ? " .." : "");
    }
    if (seen.frames && seen.is_black && !seen.tiles)
        FOUND("no tile is ever written: 4000H to 43FFH is 0, and no sprite shows");
    else if (seen.frames && seen.is_black && !seen.colours)
        FOUND("tiles are written, and no colours: 4400H to 47FFH is 0, so that each cell has palette 0");
    else if (seen.frames && seen.is_black)
        FOUND("the last picture is of one colour, though tiles and colours are written");
    if (seen.voice && !seen.sound_on)
        FOUND("voice %d has volume and frequency, and the sound is off: 5001H never gets a 1", seen.voice);
}

int main(int count, char **words)
{
    if (count != 4 || !pac_matches())
        give_up(2, "usage: doctor ROMS HELD CLOSE");
    read_file(words[1], roms, sizeof roms);
    long frames = (long)(read_file(words[2], held, sizeof held) / 2);
    if (pac_init(&board, roms, PAC_ROMS_SIZE, PAC_SWITCHES) != PAC_DONE)
        give_up(4, "the ROM block is refused");
    for (long frame = 1; frame <= frames && seen.ran.stop == PAC_GOES; frame++)
        play_frame(frame, (uint16_t)(held[2 * frame - 2] | held[2 * frame - 1] << 8), frame <= atol(words[3]));
    seen.is_black = is_of_one_colour();
    tell_processor(), tell_interrupts(), tell_rest();
    return findings ? 1 : 0;
}
