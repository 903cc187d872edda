/* Plays a ROM block, and writes its film and its sound byte for byte as `pacboard run` does.
 *
 *   film ROMS HELD FRAMES.ppm WAVE.wav
 *
 * ROMS is made by hosts/roms.py, and HELD, which has two bytes for each frame, by hosts/script.py. The exit status is 0, 2 for other words,
 * 3 where a file can't be read or written, 4 where an input or a call is refused, and 5 where the board stopped; a line tells of each but the
 * first. Film and sound are opened once both inputs are read.
 */
#include "../pacboard.h"

#include <stdio.h>

enum { LONGEST = 36000 }; /* frames, as of a script */

static uint8_t roms[PAC_ROMS_SIZE + 1], held[2 * LONGEST + 1];

/* Writes a number, the low byte first. */
static void put(FILE *file, uint32_t number, int size)
{
    for (; size > 0; size--, number >>= 8)
        putc(number & 255, file);
}

/* Writes the head of a sound of so many samples. */
static void begin_wave(FILE *wave, uint32_t samples)
{
    fputs("RIFF", wave), put(wave, 36 + 2 * samples, 4), fputs("WAVEfmt ", wave), put(wave, 16, 4);
    put(wave, 1, 2), put(wave, 1, 2), put(wave, PAC_SAMPLE_RATE, 4), put(wave, 2 * PAC_SAMPLE_RATE, 4), put(wave, 2, 2), put(wave, 16, 2);
    fputs("data", wave), put(wave, 2 * samples, 4);
}

/* Writes a picture without its fourth bytes. */
static void put_picture(FILE *frames, uint8_t *rgba)
{
    for (int at = 0; at < PAC_WIDTH * PAC_HEIGHT; at++)
        for (int colour = 0; colour < 3; colour++)
            rgba[3 * at + colour] = rgba[4 * at + colour];
    fprintf(frames, "P6\n%d %d\n255\n", PAC_WIDTH, PAC_HEIGHT), fwrite(rgba, 3, PAC_WIDTH * PAC_HEIGHT, frames);
}

/* Reads a file from its start, so many bytes at most: how many there are; -1, which is told, where it can't be read. */
static long read_file(const char *name, uint8_t *bytes, size_t most)
{
    FILE *file = fopen(name, "rb");
    long length = file == NULL ? -1 : (long)fread(bytes, 1, most, file);
    if (file != NULL && ferror(file))
        length = -1;
    if (file != NULL)
        fclose(file);
    if (length < 0)
        fprintf(stderr, "film: %s can't be read\n", name);
    return length;
}

/* Opens an output; where it can't be, that is told. */
static FILE *create_file(const char *name)
{
    FILE *file = fopen(name, "wb");
    if (file == NULL)
        fprintf(stderr, "film: %s can't be written\n", name);
    return file;
}

/* Plays so many frames: the code of the call that was refused, if one was, and in `ran` why the board stopped. */
static uint32_t play(size_t length, long frames, FILE *film, FILE *wave, pac_ran *ran)
{
    static pac_board board;
    static uint8_t rgba[PAC_RGBA_SIZE];
    uint32_t code = pac_init(&board, roms, length, PAC_SWITCHES);
    for (long frame = 0; code == PAC_DONE && frame < frames; frame++) {
        int16_t samples[PAC_FRAME_SAMPLES + 2] = {0}; /* where the board has stopped, the rest is silence */
        uint16_t mask = (uint16_t)(held[2 * frame] | held[2 * frame + 1] << 8);
        ran->pictures = 0;
        if (ran->stop == PAC_GOES && (code = pac_hold(&board, mask, 0xFFFF)) == PAC_DONE)
            code = pac_exec(&board, roms, length, PAC_FRAME_MICROSECONDS, samples, PAC_FRAME_SAMPLES + 2, ran);
        for (int at = 0; code == PAC_DONE && at < PAC_FRAME_SAMPLES; at++)
            put(wave, (uint16_t)samples[at], 2);
        if (code == PAC_DONE && ran->pictures != 0 && (code = pac_draw(&board, roms, length, rgba, sizeof rgba)) == PAC_DONE)
            put_picture(film, rgba);
    }
    return code;
}

int main(int count, char **words)
{
    if (count != 5)
        return fprintf(stderr, "film: film ROMS HELD FRAMES.ppm WAVE.wav\n"), 2;
    long length = read_file(words[1], roms, sizeof roms), size = length < 0 ? -1 : read_file(words[2], held, sizeof held);
    if (length < 0 || size < 0)
        return 3;
    if (!pac_matches() || length != PAC_ROMS_SIZE)
        return fprintf(stderr, "film: %s\n", pac_matches() ? "the ROM block hasn't 25,120 bytes" : "the header is another library's"), 4;
    if (size % 2 != 0 || size > 2 * LONGEST)
        return fprintf(stderr, "film: what is held hasn't two bytes for each of at most %d frames\n", LONGEST), 4;
    FILE *film = create_file(words[3]), *wave = film == NULL ? NULL : create_file(words[4]);
    if (film == NULL || wave == NULL)
        return 3;
    pac_ran ran = {0};
    begin_wave(wave, PAC_FRAME_SAMPLES * (uint32_t)(size / 2));
    uint32_t code = play((size_t)length, size / 2, film, wave, &ran);
    int has_failed = ferror(film) | ferror(wave);
    has_failed |= fclose(film), has_failed |= fclose(wave);
    if (code != PAC_DONE)
        return fprintf(stderr, "film: a call is refused with code %u\n", code), 4;
    if (has_failed)
        return fprintf(stderr, "film: film or sound can't be written whole\n"), 3;
    return ran.stop == PAC_GOES ? 0 : (fprintf(stderr, "film: the board stopped at PC %u\n", ran.pc), 5);
}
