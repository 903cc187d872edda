/* What was played on a machine (machine.h), frame by frame, with a way back to each of them: for players that go back, that play the same
 * again with other content, and that read and write scripts. All zeros is a tape without a board. */
#ifndef PAC_TAPE_H
#define PAC_TAPE_H

#include "machine.h"

enum { TAPE_FRAMES = 36000, TAPE_EACH = 30, TAPE_INPUTS = 16 }; /* frames at most, and from one kept block to the next */

typedef struct tape {
    machine machine;
    long now;                                    /* frames that were played */
    bool is_amid;                                /* in a frame, at an address where the last call ended */
    uint16_t held[TAPE_FRAMES];                  /* what is held in each frame, also in those to come where a file says it */
    pac_board kept[TAPE_FRAMES / TAPE_EACH + 1]; /* the block before each 30th frame */
    struct timespec saved;                       /* when the content was saved that was loaded last */
    struct timespec seen;                        /* when it was saved, as the last look at it says */
} tape;

/* Whether two moments are one. */
static inline bool tape_is_same(struct timespec one, struct timespec other)
{
    return one.tv_sec == other.tv_sec && one.tv_nsec == other.tv_nsec;
}

/* Plays a frame with these inputs, or goes on with it where the last call ended at an address of the set: whether it is over. It isn't at
 * such an address, where there is no room for it, or where the board refuses it. */
static inline bool tape_play(tape *it, uint16_t mask, const uint8_t *places, size_t length, int16_t *samples, pac_until *ran)
{
    pac_live *live = &it->machine.live;
    pac_registers at = {0};
    if (it->now >= TAPE_FRAMES)
        return false;
    if (!it->is_amid && it->now % TAPE_EACH == 0)
        pac_live_give(live, &it->kept[it->now / TAPE_EACH]);
    if (!it->is_amid)
        it->held[it->now] = mask;
    pac_live_hold(live, it->held[it->now], 0xFFFF), pac_live_registers(live, &at);
    uint32_t ticks = (uint32_t)((uint64_t)(it->now + 1) * MACHINE_FRAME - at.time);
    if (pac_live_until(live, ticks, places, length, places, 0, samples, MACHINE_ROOM, ran) != PAC_DONE)
        return false;
    it->is_amid = ran->why == PAC_UNTIL_PLACE;
    it->now += !it->is_amid;
    return !it->is_amid;
}

/* Plays the frames up to one again. */
static inline void tape_again(tape *it, long frame)
{
    int16_t samples[MACHINE_ROOM];
    uint8_t none[1] = {0};
    pac_until ran;
    for (it->is_amid = false; it->now < frame && tape_play(it, it->held[it->now], none, 0, samples, &ran);)
        continue;
}

/* Goes to the moment after so many of the frames that were played. */
static inline void tape_go_to(tape *it, long frame)
{
    long wanted = frame < 0 ? 0 : frame;
    if (machine_put(&it->machine, &it->kept[wanted / TAPE_EACH]) == PAC_DONE)
        it->now = wanted / TAPE_EACH * TAPE_EACH, tape_again(it, wanted);
}

/* Puts the board at power-on with the content of a path, and plays to the same moment: what is wrong, and NULL where nothing is. */
static inline const char *tape_load(tape *it, const char *path)
{
    struct stat about = {0};
    long wanted = it->now;
    it->saved = stat(path, &about) == 0 ? about.st_mtim : it->saved;
    const char *wrong = machine_load(&it->machine, path, PAC_SWITCHES);
    if (wrong == NULL)
        it->now = 0, tape_again(it, wanted);
    return wrong;
}

/* Whether the content of a path was saved since it was loaded, and not since the look before this one: until then it may be half written. */
static inline bool tape_is_old(tape *it, const char *path)
{
    struct stat about;
    struct timespec before = it->seen;
    if (stat(path, &about) != 0)
        return false;
    it->seen = about.st_mtim;
    return tape_is_same(it->seen, before) && !tape_is_same(it->seen, it->saved);
}

/* Reads what is held from a file of hosts/script.py: two bytes for each frame, the low one first, as the processors have them for which
 * there is the library. */
static inline bool tape_read(tape *it, const char *path)
{
    long size = content_file(path, (uint8_t *)it->held, sizeof it->held);
    return size >= 0 && size % 2 == 0;
}

/* Writes what was played as a script. */
static inline void tape_write_script(tape *it, FILE *file)
{
    static const char *const names[TAPE_INPUTS] = {"P1_UP", "P1_LEFT", "P1_RIGHT", "P1_DOWN", "RACK_TEST",  "COIN1",  "COIN2",  "CREDIT",
                                                   "P2_UP", "P2_LEFT", "P2_RIGHT", "P2_DOWN", "BOARD_TEST", "START1", "START2", "COCKTAIL"};
    for (long at = 0, next; at < it->now; at = next) {
        for (next = at; next < it->now && it->held[next] == it->held[at];)
            next++;
        fprintf(file, "%ld%s", next - at, it->held[at] == 0 ? " -" : "");
        for (int bit = 0, before = ' '; bit < TAPE_INPUTS; bit++)
            if (it->held[at] >> bit & 1)
                fprintf(file, "%c%s", before, names[bit]), before = ',';
        fputc('\n', file);
    }
}

/* Writes the picture as a PPM image. */
static inline void tape_write_picture(tape *it, FILE *file)
{
    static uint8_t rgba[PAC_RGBA_SIZE];
    if (pac_live_draw(&it->machine.live, PAC_RGBA, rgba, sizeof rgba) == PAC_DONE)
        fprintf(file, "P6\n%d %d\n255\n", PAC_WIDTH, PAC_HEIGHT);
    for (size_t at = 0; at < sizeof rgba; at += 4)
        fwrite(rgba + at, 1, 3, file);
}

/* Writes a file, if it has a name, by one of the calls above: whether all of it is written. */
static inline bool tape_is_written(tape *it, const char *path, void (*write)(tape *, FILE *))
{
    FILE *file = path == NULL ? NULL : fopen(path, "wb");
    if (file == NULL)
        return path == NULL;
    write(it, file);
    bool has_failed = ferror(file) != 0;
    return (fclose(file) == 0) & !has_failed;
}

#endif
