/* Plays a program on the proved board in a window, by SDL 2. hosts/sdl/build makes it.
 *
 *   player CONTENT [--held FILE] [--frames N] [--to ADDRESS] [--record SCRIPT] [--picture PPM] [--scale N] [--turn N]
 *
 * CONTENT is a ROM block, a manifest or a source (hosts/c/content.h); a source is assembled again whenever it is saved, and the same frame
 * is shown with it. --held takes what is held from a file of hosts/script.py instead of the keys; --frames ends after so many frames; --to
 * pauses before each instruction at an address of four hexadecimal digits, and ends there where --frames is given; --record writes what was
 * held as a script; --picture writes the last picture. The exit status is 0, 2 for other words, 3 where a file can't be written or there is
 * no window, and 4 where the content is refused. */
#include "../c/tape.h"

#include <SDL.h>
#include <getopt.h>

enum { MOST_QUEUED = 4 * 2 * PAC_FRAME_SAMPLES, DEAD = 12000 }; /* bytes of sound, and the middle of a stick */
enum { HELD, RECORD, PICTURE, FRAMES, TO, SCALE, TURN, WORDS };

static const SDL_Scancode keys[TAPE_INPUTS] = { /* by the bits of a mask */
    SDL_SCANCODE_UP, SDL_SCANCODE_LEFT, SDL_SCANCODE_RIGHT, SDL_SCANCODE_DOWN, SDL_SCANCODE_F9,  SDL_SCANCODE_5,
    SDL_SCANCODE_6,  SDL_SCANCODE_7,    SDL_SCANCODE_R,     SDL_SCANCODE_D,    SDL_SCANCODE_G,   SDL_SCANCODE_F,
    SDL_SCANCODE_F10, SDL_SCANCODE_1,   SDL_SCANCODE_2,     SDL_SCANCODE_F11,
};
static const uint16_t buttons[SDL_CONTROLLER_BUTTON_MAX] = {
    [SDL_CONTROLLER_BUTTON_DPAD_UP] = PAC_P1_UP, PAC_P1_DOWN, PAC_P1_LEFT, PAC_P1_RIGHT, /* (in this order) */
    [SDL_CONTROLLER_BUTTON_BACK] = PAC_COIN1, [SDL_CONTROLLER_BUTTON_START] = PAC_START1, [SDL_CONTROLLER_BUTTON_Y] = PAC_CREDIT,
};
static const uint16_t sticks[2][2] = {{PAC_P1_LEFT, PAC_P1_RIGHT}, {PAC_P1_UP, PAC_P1_DOWN}}; /* the left one's X and Y: below the middle, above */
static const struct option options[] = {
    {"held", 1, NULL, HELD}, {"record", 1, NULL, RECORD}, {"picture", 1, NULL, PICTURE}, {"frames", 1, NULL, FRAMES},
    {"to", 1, NULL, TO},     {"scale", 1, NULL, SCALE},   {"turn", 1, NULL, TURN},       {NULL, 0, NULL, 0},
};
static const long most[WORDS] = {[FRAMES] = TAPE_FRAMES, [TO] = 0xFFFF, [SCALE] = 8, [TURN] = 3}; /* of an option that is a number */

static const char *content, *text[WORDS];
static long number[WORDS] = {[FRAMES] = -1, [TO] = -1, [SCALE] = 2};
static tape it;
static bool is_paused, is_over;
static SDL_Window *window;
static SDL_Renderer *renderer;
static SDL_Texture *texture;
static SDL_AudioDeviceID sound; /* 0 where there is none */
static SDL_GameController *pad;

/* What is held: by the file of --held, or on the keys and the gamepad. */
static uint16_t held_now(void)
{
    const uint8_t *down = SDL_GetKeyboardState(NULL);
    unsigned mask = 0;
    if (text[HELD] != NULL && it.now < TAPE_FRAMES)
        return it.held[it.now];
    for (int bit = 0; bit < TAPE_INPUTS; bit++)
        mask |= (unsigned)down[keys[bit]] << bit;
    for (int at = 0; at < SDL_CONTROLLER_BUTTON_MAX; at++)
        mask |= SDL_GameControllerGetButton(pad, at) ? buttons[at] : 0u;
    for (int at = SDL_CONTROLLER_AXIS_LEFTX, way; at <= SDL_CONTROLLER_AXIS_LEFTY; at++)
        mask |= abs(way = SDL_GameControllerGetAxis(pad, at)) > DEAD ? sticks[at][way > 0] : 0u;
    return (uint16_t)mask;
}

/* Plays a frame, or goes on with it, and lets it be heard, silence after a stop: whether it is over. Where it is at the address of --to,
 * that is told. */
static bool play_frame(void)
{
    static uint8_t places[0x10000];
    int16_t samples[MACHINE_ROOM] = {0};
    pac_registers at = {0};
    pac_until ran = {0};
    if (number[TO] >= 0)
        places[number[TO]] = 1;
    bool is_whole = tape_play(&it, held_now(), places, number[TO] < 0 ? 0 : sizeof places, samples, &ran);
    SDL_QueueAudio(sound, samples, 2 * (ran.why == PAC_UNTIL_STOP ? PAC_FRAME_SAMPLES : ran.samples));
    if (ran.why == PAC_UNTIL_PLACE && pac_live_registers(&it.machine.live, &at) == PAC_DONE) {
        fprintf(stderr, "player: at %04X in frame %ld, T-state %llu\n", at.pc, it.now, (unsigned long long)at.time);
        is_over |= number[FRAMES] >= 0;
    }
    return is_whole;
}

/* Loads the content again where it was saved since, a frame after it was. */
static void look_at_source(void)
{
    if (!tape_is_old(&it, content))
        return;
    const char *wrong = tape_load(&it, content);
    fprintf(stderr, "player: %s: %s\n", content, wrong == NULL ? "played to the same moment" : wrong);
    SDL_SetWindowTitle(window, wrong == NULL ? "pacboard" : wrong);
}

/* Takes what has happened to the window. */
static void take_events(void)
{
    for (SDL_Event event; SDL_PollEvent(&event);) {
        is_over |= event.type == SDL_QUIT;
        if (event.type == SDL_CONTROLLERDEVICEADDED)
            SDL_GameControllerClose(pad), pad = SDL_GameControllerOpen(event.cdevice.which);
        switch (event.type == SDL_KEYDOWN ? event.key.keysym.scancode : SDL_SCANCODE_UNKNOWN) {
        case SDL_SCANCODE_ESCAPE: is_over = true; break;
        case SDL_SCANCODE_P: is_paused = !is_paused; break;
        case SDL_SCANCODE_N: is_paused = true, play_frame(); break;
        case SDL_SCANCODE_BACKSPACE: tape_go_to(&it, it.now - (is_paused ? 1 : 2 * TAPE_EACH)); break;
        case SDL_SCANCODE_F5: tape_go_to(&it, 0); break;
        default: break;
        }
    }
}

/* Opens the window, and the sound where there is one. */
static bool open_window(void)
{
    SDL_AudioSpec wanted = {.freq = PAC_SAMPLE_RATE, .format = AUDIO_S16SYS, .channels = 1, .samples = 1024};
    int width = number[TURN] % 2 ? PAC_HEIGHT : PAC_WIDTH, height = PAC_WIDTH + PAC_HEIGHT - width, scale = (int)number[SCALE];
    if (SDL_Init(SDL_INIT_VIDEO | SDL_INIT_GAMECONTROLLER) != 0
        || SDL_CreateWindowAndRenderer(width * scale, height * scale, 0, &window, &renderer) != 0)
        return false;
    SDL_SetWindowTitle(window, "pacboard"), SDL_RenderSetLogicalSize(renderer, width, height);
    texture = SDL_CreateTexture(renderer, SDL_PIXELFORMAT_BGRA32, SDL_TEXTUREACCESS_STREAMING, PAC_WIDTH, PAC_HEIGHT);
    if (SDL_InitSubSystem(SDL_INIT_AUDIO) == 0 && (sound = SDL_OpenAudioDevice(NULL, 0, &wanted, NULL, 0)) != 0)
        SDL_PauseAudioDevice(sound, 0);
    return texture != NULL;
}

/* Shows the picture. */
static void show(void)
{
    static uint8_t pixels[PAC_RGBA_SIZE];
    int aside = number[TURN] % 2 ? (PAC_HEIGHT - PAC_WIDTH) / 2 : 0;
    SDL_Rect whole = {aside, -aside, PAC_WIDTH, PAC_HEIGHT};
    if (pac_live_draw(&it.machine.live, PAC_BGRA, pixels, sizeof pixels) == PAC_DONE)
        SDL_UpdateTexture(texture, NULL, pixels, 4 * PAC_WIDTH);
    SDL_RenderClear(renderer);
    SDL_RenderCopyEx(renderer, texture, NULL, &whole, -90.0 * (double)number[TURN], NULL, SDL_FLIP_NONE);
    SDL_RenderPresent(renderer);
}

/* Waits until a frame is due: by the sound's queue where there is sound, and by the clock elsewhere. */
static void wait_for_frame(void)
{
    static uint64_t due;
    uint64_t frame = SDL_GetPerformanceFrequency() * PAC_FRAME_MICROSECONDS / 1000000;
    bool is_heard = sound != 0 && !is_paused;
    for (int waits = 0; waits < 20 && (is_heard ? SDL_GetQueuedAudioSize(sound) > MOST_QUEUED : SDL_GetPerformanceCounter() < due); waits++)
        SDL_Delay(1);
    due = SDL_max(due, SDL_GetPerformanceCounter() - frame) + frame;
}

/* Reads the words of the command line. */
static bool read_words(int count, char **word)
{
    int found;
    for (opterr = 0; (found = getopt_long(count, word, "", options, NULL)) >= 0 && found < WORDS;) {
        char *end = optarg + strlen(text[found] = optarg);
        number[found] = most[found] > 0 ? strtol(optarg, &end, found == TO ? 16 : 10) : 0;
        if (end == optarg || *end != '\0' || number[found] < 0 || number[found] > most[found])
            return false;
    }
    content = word[optind];
    return found < 0 && optind + 1 == count && number[SCALE] > 0;
}

int main(int count, char **word)
{
    if (!read_words(count, word))
        return fputs("usage: player CONTENT [--held FILE] [--frames N] [--to ADDRESS] [--record SCRIPT] [--picture PPM] [--scale N] "
                     "[--turn N]\n", stderr), 2;
    const char *wrong = text[HELD] != NULL && !tape_read(&it, text[HELD]) ? "what is held can't be read" : tape_load(&it, content);
    if (wrong != NULL)
        return fprintf(stderr, "player: %s: %s\n", content, wrong), 4;
    if (!open_window())
        return fprintf(stderr, "player: %s\n", SDL_GetError()), 3;
    while (!is_over && (number[FRAMES] < 0 || it.now < number[FRAMES])) {
        take_events(), look_at_source();
        if (!is_paused && !is_over)
            is_paused = !play_frame();
        show(), wait_for_frame();
    }
    bool is_written = tape_is_written(&it, text[RECORD], tape_write_script) & tape_is_written(&it, text[PICTURE], tape_write_picture);
    SDL_Quit();
    return is_written ? 0 : (fprintf(stderr, "player: script or picture can't be written\n"), 3);
}
