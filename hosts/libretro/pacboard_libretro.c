/* The proved board as a libretro core, for RetroArch and other frontends. hosts/libretro/build makes it.
 *
 * Content is a ROM block, a manifest or a source (hosts/c/content.h). The board is live, and after each frame its block is there for the
 * frontend: as its state, so rewind and run-ahead are the frontend's, and as memory, which cheats may change. Sound has 96,000 samples a
 * second, which the frontend resamples; a picture is XRGB8888. */
#include "../c/machine.h"

#include <libretro.h>

#pragma GCC diagnostic ignored "-Wunused-parameter" /* libretro hands over more than this core takes */

enum { PORTS = 2, BUTTONS = RETRO_DEVICE_ID_JOYPAD_R + 1, SWITCHES = 5, TURN = SWITCHES, PARTS = 4 };

/* What the buttons of both joypads hold. */
static const uint16_t buttons[PORTS][BUTTONS] = {
    {[RETRO_DEVICE_ID_JOYPAD_UP] = PAC_P1_UP, [RETRO_DEVICE_ID_JOYPAD_LEFT] = PAC_P1_LEFT, [RETRO_DEVICE_ID_JOYPAD_RIGHT] = PAC_P1_RIGHT,
     [RETRO_DEVICE_ID_JOYPAD_DOWN] = PAC_P1_DOWN, [RETRO_DEVICE_ID_JOYPAD_SELECT] = PAC_COIN1, [RETRO_DEVICE_ID_JOYPAD_START] = PAC_START1,
     [RETRO_DEVICE_ID_JOYPAD_X] = PAC_CREDIT, [RETRO_DEVICE_ID_JOYPAD_L] = PAC_RACK_TEST, [RETRO_DEVICE_ID_JOYPAD_R] = PAC_BOARD_TEST},
    {[RETRO_DEVICE_ID_JOYPAD_UP] = PAC_P2_UP, [RETRO_DEVICE_ID_JOYPAD_LEFT] = PAC_P2_LEFT, [RETRO_DEVICE_ID_JOYPAD_RIGHT] = PAC_P2_RIGHT,
     [RETRO_DEVICE_ID_JOYPAD_DOWN] = PAC_P2_DOWN, [RETRO_DEVICE_ID_JOYPAD_SELECT] = PAC_COIN2, [RETRO_DEVICE_ID_JOYPAD_START] = PAC_START2,
     [RETRO_DEVICE_ID_JOYPAD_R] = PAC_COCKTAIL},
};

/* The options: groups of the DIP switches by the words of bin/dip, from that of PAC_SWITCHES on in the order of their values, after the last
 * of which comes 0; and the quarter turns. */
static const struct retro_variable options[] = {
    {"pacboard_coins", "Coins; 1C1C|1C2C|2C1C|FREE"}, {"pacboard_lives", "Lives; 3|5|1|2"},
    {"pacboard_bonus", "Bonus life; 10000|15000|20000|NONE"}, {"pacboard_difficulty", "Difficulty; NORMAL|HARD"},
    {"pacboard_names", "Ghosts' names; NORMAL|ALTERNATE"}, {"pacboard_turn", "Quarter turns to the left; 0|1|2|3"}, {NULL, NULL},
};
static const uint8_t shifts[SWITCHES + 1] = {0, 2, 4, 6, 7, 8}; /* the groups' bits, and the end of the last one */

static machine it;
static pac_board seen; /* the board, as the frontend sees it */
static bool is_loaded, is_told;
static retro_environment_t environment;
static retro_video_refresh_t show;
static retro_audio_sample_batch_t play;
static retro_input_poll_t poll_input;
static retro_input_state_t input;

/* Where the frontend's cheats find the board's memory. */
static struct retro_memory_descriptor parts[PARTS] = {
    {.flags = RETRO_MEMDESC_CONST, .ptr = it.roms, .start = 0, .len = PAC_SOURCE_ROM_SIZE, .addrspace = "ROM"},
    {.ptr = seen.bytes + PAC_AT_TILE_RAM, .start = 0x4000, .len = PAC_TILE_RAM_SIZE, .addrspace = "TILES"},
    {.ptr = seen.bytes + PAC_AT_COLOUR_RAM, .start = 0x4400, .len = PAC_COLOUR_RAM_SIZE, .addrspace = "COLOURS"},
    {.flags = RETRO_MEMDESC_SYSTEM_RAM, .ptr = seen.bytes + PAC_AT_WORK_RAM, .start = 0x4C00, .len = PAC_WORK_RAM_SIZE, .addrspace = "RAM"},
};

static const struct retro_system_info about = {
    .library_name = "pacboard", .library_version = "0.1", .valid_extensions = "roms|toml|asm", .need_fullpath = true,
};
static const struct retro_system_av_info shape = {
    .geometry = {PAC_WIDTH, PAC_HEIGHT, PAC_WIDTH, PAC_HEIGHT, (float)PAC_WIDTH / PAC_HEIGHT},
    .timing = {1e6 / PAC_FRAME_MICROSECONDS, PAC_SAMPLE_RATE},
};

RETRO_API unsigned retro_api_version(void) { return RETRO_API_VERSION; }
RETRO_API unsigned retro_get_region(void) { return RETRO_REGION_NTSC; }
RETRO_API void retro_get_system_info(struct retro_system_info *info) { *info = about; }
RETRO_API void retro_get_system_av_info(struct retro_system_av_info *info) { *info = shape; }
RETRO_API void retro_init(void) {}
RETRO_API void retro_deinit(void) { machine_close(&it); }
RETRO_API void retro_set_environment(retro_environment_t call) { (environment = call)(RETRO_ENVIRONMENT_SET_VARIABLES, (void *)options); }
RETRO_API void retro_set_video_refresh(retro_video_refresh_t call) { show = call; }
RETRO_API void retro_set_audio_sample(retro_audio_sample_t call) {}
RETRO_API void retro_set_audio_sample_batch(retro_audio_sample_batch_t call) { play = call; }
RETRO_API void retro_set_input_poll(retro_input_poll_t call) { poll_input = call; }
RETRO_API void retro_set_input_state(retro_input_state_t call) { input = call; }
RETRO_API void retro_set_controller_port_device(unsigned port, unsigned device) {}
RETRO_API void retro_cheat_reset(void) {}
RETRO_API void retro_cheat_set(unsigned index, bool is_on, const char *code) {}
RETRO_API bool retro_load_game_special(unsigned type, const struct retro_game_info *games, size_t count) { return false; }
RETRO_API void retro_unload_game(void) { is_loaded = false; }
RETRO_API size_t retro_serialize_size(void) { return PAC_BOARD_SIZE; }
RETRO_API void *retro_get_memory_data(unsigned kind) { return kind == RETRO_MEMORY_SYSTEM_RAM ? seen.bytes + PAC_AT_WORK_RAM : NULL; }
RETRO_API size_t retro_get_memory_size(unsigned kind) { return kind == RETRO_MEMORY_SYSTEM_RAM ? PAC_WORK_RAM_SIZE : 0; }

/* Shows a line of text, if the frontend does. */
static void tell(const char *text)
{
    struct retro_message message = {text, 300};
    environment(RETRO_ENVIRONMENT_SET_MESSAGE, &message);
}

/* Which of an option's words the frontend has: 0 is the first, and where it has none. */
static unsigned option(int at)
{
    struct retro_variable asked = {options[at].key, NULL};
    if (!environment(RETRO_ENVIRONMENT_GET_VARIABLE, &asked) || asked.value == NULL)
        return 0;
    const char *word = strchr(options[at].value, ';') + 1;
    size_t length = strlen(asked.value);
    for (unsigned place = 0; word != NULL; place++, word = strchr(word, '|'))
        if (strncmp(++word, asked.value, length) == 0 && (word[length] == '|' || word[length] == '\0'))
            return place;
    return 0;
}

/* The byte of the DIP switches, as the options are now. */
static uint8_t switches(void)
{
    unsigned found = 0;
    for (int at = 0; at < SWITCHES; at++)
        found |= (((unsigned)PAC_SWITCHES >> shifts[at]) + option(at)) % (1u << (shifts[at + 1] - shifts[at])) << shifts[at];
    return (uint8_t)found;
}

RETRO_API bool retro_load_game(const struct retro_game_info *game)
{
    enum retro_pixel_format format = RETRO_PIXEL_FORMAT_XRGB8888;
    struct retro_memory_map map = {parts, PARTS};
    unsigned turns = option(TURN);
    const char *wrong = !environment(RETRO_ENVIRONMENT_SET_PIXEL_FORMAT, &format) ? "the frontend shows no XRGB8888"
        : game == NULL || game->path == NULL ? "no content" : machine_load(&it, game->path, switches());
    if (wrong != NULL)
        return tell(wrong), false;
    environment(RETRO_ENVIRONMENT_SET_ROTATION, &turns), environment(RETRO_ENVIRONMENT_SET_MEMORY_MAPS, &map);
    is_told = false;
    return is_loaded = pac_live_give(&it.live, &seen) == PAC_DONE;
}

RETRO_API void retro_reset(void)
{
    machine_open(&it, it.roms, switches()), pac_live_give(&it.live, &seen), is_told = false;
}

/* What is held on both joypads. */
static uint16_t held(void)
{
    unsigned mask = 0;
    for (unsigned at = 0; at < PORTS * BUTTONS; at++)
        mask |= input(at / BUTTONS, RETRO_DEVICE_JOYPAD, 0, at % BUTTONS) ? buttons[at / BUTTONS][at % BUTTONS] : 0u;
    return (uint16_t)mask;
}

/* A frame, of the board as cheats have left it: its sound in both ears, silence after a stop, and its picture. */
RETRO_API void retro_run(void)
{
    static uint8_t picture[PAC_RGBA_SIZE];
    int16_t samples[MACHINE_ROOM] = {0}, both[2 * MACHINE_ROOM];
    pac_ran ran = {0};
    poll_input();
    uint16_t mask = held(); /* RetroArch may load a state or write to memory meanwhile */
    if (machine_put(&it, &seen) != PAC_DONE || pac_live_hold(&it.live, mask, 0xFFFF) != PAC_DONE
        || pac_live_exec(&it.live, PAC_FRAME_MICROSECONDS, samples, MACHINE_ROOM, &ran) != PAC_DONE)
        tell("the board refuses the frame");
    if (ran.stop != PAC_GOES && !is_told)
        is_told = true, tell("the board stopped: its program has run into what is no instruction");
    size_t count = ran.samples > PAC_FRAME_SAMPLES ? ran.samples : PAC_FRAME_SAMPLES;
    for (size_t at = 0; at < 2 * count; at++)
        both[at] = samples[at / 2];
    for (size_t done = 0, part; done < count && (part = play(both + 2 * done, count - done)) > 0; done += part)
        continue;
    pac_live_draw(&it.live, PAC_BGRA, picture, PAC_RGBA_SIZE);
    pac_live_give(&it.live, &seen);
    show(picture, PAC_WIDTH, PAC_HEIGHT, 4 * PAC_WIDTH);
}

RETRO_API bool retro_serialize(void *bytes, size_t size)
{
    return is_loaded && size >= PAC_BOARD_SIZE && memcpy(bytes, seen.bytes, PAC_BOARD_SIZE) == bytes;
}

RETRO_API bool retro_unserialize(const void *bytes, size_t size)
{
    static pac_board board;
    if (!is_loaded || size < PAC_BOARD_SIZE || machine_put(&it, memcpy(&board, bytes, PAC_BOARD_SIZE)) != PAC_DONE)
        return false;
    return seen = board, is_told = false, true;
}
