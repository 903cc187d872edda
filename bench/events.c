/* A Pac-Man board that makes nothing before it has to: what bench/peer.py times beside the proved one. It is written as a C programmer
 * would, by docs/USING.md ("The board on one page"), docs/FORMATS.md and docs/DECISIONS.md.
 *
 * The processor runs from blank to blank. Samples are made when a sound register or the sound's switch is about to change, and at the end.
 * Lines that the scan has passed are composed when something that is drawn is about to change, and at the end; and of them only those on
 * which something is other than when they were composed last.
 *
 * It has the ten functions of conformance/core.h, so conformance/runner.c tries it, too.
 */
#include "events.h"

#include <stdlib.h>
#include <string.h>

#include "../conformance/core.h"

enum { TILES = 16384, SPRITE_SHAPES = 20480, COLOURS = 24576, LOOKUP = 24608, WAVES = 24864 }; /* parts of the ROM block */
enum { TILE_RAM = 0x4000, COLOUR_RAM = 0x4400, WORK_RAM = 0x4C00, SHAPES = 0x4FF0, PORTS = 0x5000, PAGE = 1024 };

/* ---- Sound */

/* Makes the samples of all moments up to a time, by the registers as they are. */
static void hear(struct board *board, uint64_t time)
{
    const uint8_t *r = board->registers;
    int count = (int)(time / 32 - board->heard);
    int16_t *out = board->samples + board->made;
    const int16_t *waves[VOICES];
    uint32_t steps[VOICES], at[VOICES];

    board->heard += (unsigned)count, board->made += count;
    if (!(board->latch & SOUND)) {
        memset(out, 0, (size_t)count * sizeof *out);
        return;
    }
    for (int voice = 0; voice < VOICES; voice++) {
        const uint8_t *digits = r + 0x11 + 5 * voice;

        uint32_t frequency = (uint32_t)(digits[0] << 4 | digits[1] << 8 | digits[2] << 12 | digits[3] << 16 | (voice == 0 ? r[0x10] : 0));

        waves[voice] = board->waves[r[5 + 5 * voice] & 7][digits[4]];
        steps[voice] = frequency << 12, at[voice] = board->accumulators[voice] << 12; /* 20 bits, so that they wrap */
    }
    for (int n = 0; n < count; n++) {
        out[n] = (int16_t)(waves[0][at[0] >> 27] + waves[1][at[1] >> 27] + waves[2][at[2] >> 27]);
        at[0] += steps[0], at[1] += steps[1], at[2] += steps[2];
    }
    for (int voice = 0; voice < VOICES; voice++)
        board->accumulators[voice] = at[voice] >> 12;
}

/* ---- Picture */

/* Draws the cells of a line that changed. */
static void draw_cells(struct board *board, int y)
{
    const uint16_t *places = board->places[y / 8];

    for (uint64_t left = board->stale[y]; left != 0; left &= left - 1) {
        int column = __builtin_ctzll(left);
        const uint8_t *cell = board->memory + TILE_RAM + places[column];

        memcpy(board->cells[y] + 8 * column, &board->tiles[cell[PAGE] & 31][cell[0]][y % 8], 8);
    }
    board->stale[y] = 0;
}

/* Draws a sprite's row into a line. */
static void draw_sprite(const struct board *board, int sprite, int y, uint8_t *line)
{
    const uint8_t *shape = board->memory + SHAPES + 2 * sprite, *place = board->coordinates + 2 * sprite;
    int row = y - (place[0] - 31);
    const uint8_t *image = board->sprites[shape[1] & 31][shape[0] >> 2][shape[0] & 2 ? SIDE - 1 - row : row];
    uint8_t turned[SIDE], *out = line + 272 - place[1];

    if (shape[0] & 1) {
        for (int x = 0; x < SIDE; x++)
            turned[x] = image[SIDE - 1 - x];
        image = turned;
    }
    for (int x = 0; x < SIDE; x++)
        out[x] = image[x] ? image[x] : out[x];
}

/* Turns a line round, eight pixels at a time. */
static void reverse(uint8_t *line)
{
    for (int x = 0; x < WIDTH / 2; x += 8) {
        uint64_t left, right;

        memcpy(&left, line + x, 8), memcpy(&right, line + WIDTH - 8 - x, 8);
        left = __builtin_bswap64(left), right = __builtin_bswap64(right);
        memcpy(line + x, &right, 8), memcpy(line + WIDTH - 8 - x, &left, 8);
    }
}

/* Composes a line as it is shown. */
static void compose(struct board *board, int shown)
{
    int y = board->latch & FLIP ? HEIGHT - 1 - shown : shown;
    uint8_t *line = board->picture[shown];

    if (!board->dirty[y] && !board->stale[y])
        return;
    draw_cells(board, y);
    board->dirty[y] = 0;
    memcpy(line, board->cells[y], WIDTH);
    if (board->covers[y]) {
        for (int sprite = SPRITES - 1; sprite >= 0; sprite--)
            if (board->covers[y] >> sprite & 1)
                draw_sprite(board, sprite, y, line);
        memcpy(line + 272, board->cells[y] + 272, WIDTH - 272); /* no sprite shows there */
    }
    if (board->latch & FLIP)
        reverse(line);
}

/* Composes the lines whose moments have come up to a time. */
static inline void show(struct board *board, uint64_t time)
{
    for (; time >= board->line_time && board->line < HEIGHT; board->line++, board->line_time += LINE)
        compose(board, board->line);
}

/* The lines that a sprite has rows on are dirty. */
static void soil(struct board *board, int sprite)
{
    int top = board->coordinates[2 * sprite] - 31;

    for (int y = top < 0 ? 0 : top; y < top + SIDE && y < HEIGHT; y++)
        board->dirty[y] = 1;
}

/* A sprite goes to other lines. */
static void move(struct board *board, int sprite, uint8_t byte)
{
    int old = board->coordinates[2 * sprite] - 31, new = byte - 31;

    soil(board, sprite);
    for (int y = old < 0 ? 0 : old; y < old + SIDE && y < HEIGHT; y++)
        board->covers[y] &= (uint8_t)~(1 << sprite);
    board->coordinates[2 * sprite] = byte;
    for (int y = new < 0 ? 0 : new; y < new + SIDE && y < HEIGHT; y++)
        board->covers[y] |= (uint8_t)(1 << sprite);
    soil(board, sprite);
}

/* Another tile or another palette is in a cell. */
static void change_cell(struct board *board, unsigned place)
{
    uint64_t bit = UINT64_C(1) << board->column_of[place];
    uint64_t *lines = board->stale + 8 * board->row_of[place];

    if (board->column_of[place] < CELLS)
        for (int y = 0; y < 8; y++)
            lines[y] |= bit;
}

/* ---- Writes */

/* The latch becomes these bits. */
static void set_latch(struct board *board, uint8_t latch, uint64_t time)
{
    uint8_t changes = board->latch ^ latch;

    if (changes & SOUND)
        hear(board, time);
    if (changes & FLIP) {
        show(board, time);
        memset(board->dirty, 1, HEIGHT);
    }
    board->latch = latch;
    board->request &= latch & ENABLE;
}

/* A byte goes to a port, 0 to FFH. */
static void write_port(struct board *board, unsigned port, uint8_t byte, uint64_t time)
{
    if (port < 0x40) {
        unsigned bit = port & 7;

        set_latch(board, (uint8_t)((board->latch & ~(1u << bit)) | (byte & 1u) << bit), time);
    } else if (port < 0x60) {
        unsigned at = port - 0x40;

        byte &= 15;
        if ((at >= 16 || (at != 0 && at % 5 == 0)) && board->registers[at] != byte) {
            hear(board, time);
            board->registers[at] = byte;
        }
    } else if (port < 0x70) {
        unsigned at = port - 0x60;

        if (board->coordinates[at] != byte) {
            show(board, time);
            if (at % 2 == 0) {
                move(board, (int)at / 2, byte);
            } else {
                board->coordinates[at] = byte;
                soil(board, (int)at / 2);
            }
        }
    } else if (port >= 0xC0) {
        board->blanks = 0;
    }
}

void written(struct board *board, unsigned place, uint8_t byte, uint64_t time)
{
    uint8_t changes = board->memory[place & 0x4FFF] ^ byte;

    if (place >= PORTS) {
        write_port(board, place & 0xFF, byte, time);
    } else if (place < COLOUR_RAM + PAGE && changes) {
        unsigned cell = place % PAGE;

        if (place < COLOUR_RAM || changes & 31) {
            show(board, time);
            change_cell(board, cell);
        }
        keep(board, place, byte);
    } else if (place >= WORK_RAM && changes) {
        show(board, time);
        soil(board, (int)(place - SHAPES) / 2);
        keep(board, place, byte);
    }
}

/* ---- A board */

/* Unpacks tiles and sprites in each palette: two bits a pixel, four pixels a byte. */
static void unpack(struct board *board, const uint8_t *roms)
{
    static const int columns[4] = {8, 16, 24, 0};
    const uint8_t *lookup = roms + LOOKUP;

    for (int palette = 0; palette < 32; palette++) {
        for (int n = 0; n < 256 * 64; n++) {
            int x = n % 8, y = n / 8 % 8;
            uint8_t byte = roms[TILES + 16 * (n / 64) + y + (x < 4 ? 8 : 0)];
            int value = (byte >> (7 - x % 4) & 1) << 1 | (byte >> (3 - x % 4) & 1);

            ((uint8_t *)board->tiles[palette])[n] = lookup[4 * palette + value] & 15;
        }
        for (int n = 0; n < 64 * 256; n++) {
            int x = n % 16, y = n / 16 % 16;
            uint8_t byte = roms[SPRITE_SHAPES + 64 * (n / 256) + y % 8 + y / 8 * 32 + columns[x / 4]];
            int value = (byte >> (7 - x % 4) & 1) << 1 | (byte >> (3 - x % 4) & 1);

            ((uint8_t *)board->sprites[palette])[n] = lookup[4 * palette + value] & 15;
        }
    }
}

/* The places of cells, and back. */
static void place_cells(struct board *board)
{
    memset(board->column_of, CELLS, sizeof board->column_of);
    for (int row = 0; row < ROWS; row++)
        for (int column = 0; column < CELLS; column++) {
            int place = column < 2 ? 0x3C2 + 32 * column + row : column < 34 ? 0x40 + 32 * row + column - 2 : 2 + 32 * (column - 34) + row;

            board->places[row][column] = (uint16_t)place;
            board->row_of[place] = (uint8_t)row, board->column_of[place] = (uint8_t)column;
        }
}

/* All is to be drawn, and the moments are those after the board's time. */
static void begin(struct board *board)
{
    memset(board->covers, 0, HEIGHT);
    for (int sprite = 0; sprite < SPRITES; sprite++)
        move(board, sprite, board->coordinates[2 * sprite]);
    for (int y = 0; y < HEIGHT; y++)
        board->stale[y] = (UINT64_C(1) << CELLS) - 1;
    board->began = board->time / FRAME * FRAME;
    board->line = (int)((board->time - board->began) / LINE) - BEFORE + 1;
    board->line = board->line < 0 ? 0 : board->line;
    board->line_time = board->began + (uint64_t)(BEFORE + board->line) * LINE;
    board->heard = board->time / 32;
}

/* What the ports read, as inputs and switches are. */
static void set_ports(struct board *board)
{
    uint8_t reads[4] = {(uint8_t)~(board->held & 255), (uint8_t)~(board->held >> 8), board->switches, 0xFF};

    for (unsigned place = PORTS; place < PORTS + 0x1000; place += 64)
        for (unsigned mirror = 0; mirror < 4; mirror++)
            memset(board->memory + place + (mirror & 1) * 0x2000 + (mirror >> 1) * 0x8000, reads[place / 64 % 4], 64);
}

/* What happens at a blank, after the line and the sample of its moment. */
static void blank(struct board *board)
{
    struct processor *cpu = &board->processor;

    board->request |= board->latch & ENABLE;
    if (++board->blanks == 16) {
        set_latch(board, 0, board->time);
        board->blanks = 0;
        cpu->pc = 0, cpu->i = cpu->r = cpu->mode = 0;
        cpu->iff1 = cpu->iff2 = cpu->halted = cpu->after_ei = false;
    }
    board->began += FRAME, board->line = 0, board->line_time = board->began + BEFORE * LINE;
}

const char *core_name(void)
{
    return "an event-driven board in C";
}

void *core_make(const uint8_t *roms, uint8_t switches)
{
    struct board *board = calloc(1, sizeof *board);

    if (board == NULL)
        return NULL;
    for (unsigned half = 0; half <= 0x8000; half += 0x8000)
        memcpy(board->memory + half, roms, 0x4000);
    board->memory[65536] = roms[0];
    for (unsigned place = WORK_RAM - PAGE; place < WORK_RAM; place++)
        keep(board, place, 0xBF);
    for (int n = 0; n < 256 * 16; n++)
        board->waves[n / 512][n / 32 % 16][n % 32] = (int16_t)(64 * ((roms[WAVES + n / 512 * 32 + n % 32] & 15) - 8) * (n / 32 % 16));
    for (int n = 0; n < 16; n++) {
        uint8_t byte = roms[COLOURS + n];

        for (int part = 0; part < 2; part++) {
            int bits = byte >> 3 * part;

            board->colours[n][part] = (uint8_t)(33 * (bits & 1) + 71 * (bits >> 1 & 1) + 151 * (bits >> 2 & 1));
        }
        board->colours[n][2] = (uint8_t)(81 * (byte >> 6 & 1) + 174 * (byte >> 7));
    }
    board->switches = switches;
    unpack(board, roms), place_cells(board), set_ports(board), begin(board);
    return board;
}

void core_free(void *core)
{
    free(core);
}

void core_hold(void *core, uint16_t inputs)
{
    struct board *board = core;

    if (board->held != inputs) {
        board->held = inputs;
        set_ports(board);
    }
}

int core_frame(void *core)
{
    struct board *board = core;

    board->made = 0, board->asked += 16500;
    run(board, board->began + FRAME);
    hear(board, board->time);
    show(board, board->time);
    if (board->processor.stopped)
        board->asked = (125 * (board->time + 1) + 383) / 384; /* what was asked past the stop's time is forgotten */
    else
        blank(board);
    return board->processor.stopped;
}

void core_picture(void *core, uint8_t *rgb)
{
    struct board *board = core;

    for (int at = 0; at < WIDTH * HEIGHT; at++)
        memcpy(rgb + 3 * at, board->colours[((uint8_t *)board->picture)[at]], 3);
}

size_t core_samples(void *core, int16_t *samples)
{
    struct board *board = core;

    memcpy(samples, board->samples, (size_t)board->made * sizeof *samples);
    return (size_t)board->made;
}

void core_ram(void *core, uint8_t *ram)
{
    struct board *board = core;

    memcpy(ram, board->memory + TILE_RAM, 2 * PAGE), memcpy(ram + 2 * PAGE, board->memory + WORK_RAM, PAGE);
}

/* Numbers of a state file, or of a board: which way, and how far it is. */
struct file {
    uint8_t *at;
    bool is_read;
};

/* So many bytes go one way or the other. */
static void pass(struct file *file, void *bytes, size_t size)
{
    if (file->is_read)
        memcpy(bytes, file->at, size);
    else
        memcpy(file->at, bytes, size);
    file->at += size;
}

/* All of a board but its ROMs and what is made of them; and as little-endian as the processor that this runs on. */
static void pass_board(struct file *file, struct board *board)
{
    struct processor *cpu = &board->processor;
    uint8_t pairs[3][2][2], flags = (uint8_t)(cpu->iff1 | cpu->iff2 << 1 | cpu->halted << 2 | cpu->after_ei << 3), due[3] = {0};
    uint16_t *words[2][3] = {{&cpu->bc, &cpu->de, &cpu->hl}, {&cpu->bc2, &cpu->de2, &cpu->hl2}};

    for (int set = 0; set < 2; set++) {
        pass(file, set ? &cpu->a2 : &cpu->a, 1), pass(file, set ? &cpu->f2 : &cpu->f, 1);
        for (int pair = 0; pair < 3; pair++) { /* the high byte first */
            uint8_t *bytes = pairs[pair][set];

            bytes[0] = (uint8_t)(*words[set][pair] >> 8), bytes[1] = (uint8_t)*words[set][pair];
            pass(file, bytes, 2);
            *words[set][pair] = (uint16_t)(bytes[0] << 8 | bytes[1]);
        }
    }
    pass(file, &cpu->ix, 2), pass(file, &cpu->iy, 2), pass(file, &cpu->sp, 2), pass(file, &cpu->pc, 2);
    pass(file, &cpu->i, 1), pass(file, &cpu->r, 1), pass(file, &flags, 1), pass(file, &cpu->mode, 1);
    cpu->iff1 = flags & 1, cpu->iff2 = flags >> 1 & 1, cpu->halted = flags >> 2 & 1, cpu->after_ei = flags >> 3 & 1;
    pass(file, &board->time, 8), pass(file, &board->steps, 8), pass(file, &board->asked, 8);
    pass(file, board->memory + TILE_RAM, 2 * PAGE), pass(file, board->memory + WORK_RAM, PAGE);
    pass(file, board->coordinates, sizeof board->coordinates), pass(file, board->registers, sizeof board->registers);
    pass(file, board->accumulators, sizeof board->accumulators), pass(file, &board->latch, 1), pass(file, &board->vector, 1);
    pass(file, &board->request, 1), pass(file, &board->blanks, 1), pass(file, &board->held, 2), pass(file, &board->switches, 1);
    pass(file, due, 3), pass(file, board->picture, sizeof board->picture);
}

int core_load(void *core, const uint8_t *state)
{
    struct board *board = core;
    struct file file = {(uint8_t *)state + 30, true};

    pass_board(&file, board);
    for (unsigned place = TILE_RAM; place < PORTS; place++)
        keep(board, place, board->memory[place]);
    set_ports(board), begin(board);
    return 0;
}

int core_save(void *core, uint8_t *state)
{
    struct file file = {state + 30, false};

    memset(state, 0, CORE_STATE);
    memcpy(state, "PACSTATE\2", 9);
    pass_board(&file, core);
    return 0;
}
