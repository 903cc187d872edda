/* Reads bytes as files and a command line, runs the whole program on them in this process, on files in memory, and ends with a trap where
 * what comes of it isn't what docs/FORMATS.md says: what tools/check/fuzz has libFuzzer look for.
 *
 * The first byte says which command, and what is refused; the second, which write or call for memory that is, counted from 1, and how long a run
 * is. The rest is the text of its files, in this order, with a byte 1FH between them: the source, and the commands of a session; a manifest that
 * isn't the usual one; or the file that is disassembled. In place of the C library's calls for files stand those below (tools/check/fuzz renames them
 * in the program's text). A file takes a million bytes, and refuses more. What has to hold:
 *
 * - the exit status is one that the page tells for the command, and standard error has the line that goes with it, and no other;
 * - where an input is refused, or there was no memory, each output is empty; where a write is refused, the line tells the output, and
 *   how many bytes it has; where nothing is refused, film and sound have the length that the report tells;
 * - all memory is given back, all files are closed, and no other file is left; the same run again comes to the same bytes;
 * - a run that is cut in two by a saved state comes to the same film, sound and state as the whole one.
 */
#define _GNU_SOURCE
#include <errno.h>
#include <fcntl.h>
#include <stdint.h>
#include <stdio.h>
#include <stdlib.h>
#include <string.h>
#include <sys/stat.h>

enum { MOST = 1000000, OPENED = 16, FIRST = 3, BESIDE = 5, NAME = 64,
       WORDS = 24, SEPARATOR = 0x1F, PICTURE = 15 + 3 * 288 * 224, HEADER = 44, STATE = 67756 };
enum { ASM, DIS, RUN, DEBUG, CUT, MANIFEST, COMMANDS }; /* what the first byte says, in its low bits */
enum { NOTHING, MEMORY, WRITE, MEMORY_ON };             /* and what is refused, in its high bits; the last is that and all after it */

/* The files: inputs, the parts of the ROM set, outputs, and the two streams. */
enum { SOURCE, MANIFEST_FILE, SCRIPT, SESSION, LOADED, TILES, SPRITES, COLOURS, LOOKUP, WAVEFORM, INPUTS,
       ROM = INPUTS, LISTING, WAVE, FRAMES, SAVED, OUTPUT, ERROR, FILES };

struct file {
    const char *name, *told; /* and what it is called in a fault */
    size_t size;
    int is_there;
    uint8_t bytes[MOST];
};

static struct file files[FILES] = {
    {.name = "source"}, {.name = "set.toml"}, {.name = "script"}, {.name = "commands"}, {.name = "loaded"}, {.name = "tiles.rom"},
    {.name = "sprites.rom"}, {.name = "colours.prom"}, {.name = "lookup.prom"}, {.name = "wave.prom"}, {.name = "rom", .told = "rom"},
    {.name = "listing", .told = "listing"}, {.name = "wave", .told = "wave"}, {.name = "frames", .told = "frames"},
    {.name = "saved", .told = "state"}, {.name = "", .told = "text"}, {.name = ""},
};
static struct file folder; /* which the program opens to see that its streams are there */
static struct file beside[BESIDE]; /* what it makes beside its outputs, and has to take away or rename */
static char beside_names[BESIDE][NAME];
static struct { struct file *file; size_t at; } opened[OPENED];
static struct { size_t size; int is_there; uint8_t *bytes; } before[FILES]; /* what an earlier run has left */
static const char *words[WORDS];
static int word_count, refuses;
static long blocks, asked, written, refused_at, refused; /* blocks of memory, and calls counted so far; which is refused, and how many were */

int program_main(void);

/* Ends where something doesn't hold. */
#define HOLDS(is_so) ((is_so) ? (void)0 : (fprintf(stderr, "line %d doesn't hold\n", __LINE__), __builtin_trap()))

/* ---- Memory and words, as the program asks for them */

struct answer {
    int64_t is_done;
    void *block;
};

/* Whether this call for memory is refused. */
static int is_refused(void)
{
    asked++;
    int is_so = refuses == MEMORY ? asked == refused_at : refuses == MEMORY_ON && asked >= refused_at;
    refused += is_so;
    return is_so;
}

struct answer rattle_alloc(size_t size, size_t least)
{
    void *block = is_refused() ? NULL : malloc(size == 0 ? least : size);
    blocks += block != NULL;
    return (struct answer){block != NULL, block};
}

struct answer rattle_realloc(void *old, size_t size, size_t new_size, size_t least)
{
    (void)size;
    void *block = is_refused() ? NULL : realloc(old, new_size == 0 ? least : new_size);
    return (struct answer){block != NULL, block};
}

void rattle_dealloc(void *block)
{
    blocks--;
    free(block);
}

int64_t rattle_env(const char *name, char *to, size_t room)
{
    (void)name, (void)to, (void)room;
    return -1;
}

int64_t rattle_env_at(size_t number, char *to, size_t room)
{
    (void)number, (void)to, (void)room;
    return -1;
}

int64_t rattle_arg(size_t number, char *to, size_t room)
{
    if (number >= (size_t)word_count)
        return -1;
    size_t length = strlen(words[number]);
    memcpy(to, words[number], length < room ? length : room);
    return length <= room ? (int64_t)length : -2;
}

/* ---- Files */

static int fail(int error)
{
    errno = error;
    return -1;
}

/* The file of a path; NULL where there is none. */
static struct file *file_of(const char *path)
{
    const char *slash = strrchr(path, '/');
    if (strcmp(path, "/") == 0 || strcmp(path, ".") == 0)
        return folder.is_there = 1, &folder;
    path = slash == NULL ? path : slash + 1;
    for (int at = 0; at < OUTPUT; at++)
        if (strcmp(files[at].name, path) == 0)
            return &files[at];
    for (int at = 0; at < BESIDE; at++)
        if (beside[at].is_there && strcmp(beside_names[at], path) == 0)
            return &beside[at];
    return NULL;
}

/* A new file of this path; NULL where there are too many. */
static struct file *new_file(const char *path)
{
    const char *slash = strrchr(path, '/');
    for (int at = 0; at < BESIDE; at++)
        if (!beside[at].is_there)
            return snprintf(beside_names[at], NAME, "%s", slash == NULL ? path : slash + 1), &beside[at];
    return NULL;
}

/* Whether the program may write to a file. */
static int is_output(const struct file *file)
{
    return file != &folder && !(file >= &files[0] && file < &files[INPUTS]);
}

int memory_open(const char *path, int flags, ...)
{
    struct file *file = file_of(path);
    if (file == NULL && flags & O_CREAT)
        file = new_file(path);
    if (file == NULL || (!file->is_there && !(flags & O_CREAT)))
        return fail(ENOENT);
    if (file->is_there && flags & O_CREAT && flags & O_EXCL)
        return fail(EEXIST);
    HOLDS((flags & O_ACCMODE) == O_RDONLY || is_output(file));
    for (int at = 0; at < OPENED; at++)
        if (opened[at].file == NULL) {
            file->is_there = 1, file->size = flags & O_TRUNC ? 0 : file->size;
            opened[at].file = file, opened[at].at = 0;
            return FIRST + at;
        }
    return fail(EMFILE);
}

int memory_close(int number)
{
    if (number < FIRST || number >= FIRST + OPENED || opened[number - FIRST].file == NULL)
        return fail(EBADF);
    opened[number - FIRST].file = NULL;
    return 0;
}

int64_t memory_read(int number, void *to, size_t count)
{
    if (number < FIRST)
        return 0;
    HOLDS(opened[number - FIRST].file != NULL);
    struct file *file = opened[number - FIRST].file;
    size_t left = file->size - opened[number - FIRST].at;
    count = count < left ? count : left;
    memcpy(to, file->bytes + opened[number - FIRST].at, count);
    opened[number - FIRST].at += count;
    return (int64_t)count;
}

int64_t memory_write(int number, const void *from, size_t count)
{
    struct file *file = number >= FIRST ? opened[number - FIRST].file : &files[number == 1 ? OUTPUT : ERROR];
    HOLDS(file != NULL && is_output(file));
    size_t at = number >= FIRST ? opened[number - FIRST].at : file->size, room = MOST - at;
    if (file != &files[ERROR] && refuses == WRITE && ++written >= refused_at)
        room = 0;
    if (count != 0 && room == 0)
        return refused++, fail(ENOSPC);
    count = count < room ? count : room;
    memcpy(file->bytes + at, from, count);
    file->size = at + count > file->size ? at + count : file->size;
    if (number >= FIRST)
        opened[number - FIRST].at += count;
    return (int64_t)count;
}

int memory_statx(int at, const char *path, int flags, unsigned mask, struct statx *to)
{
    (void)flags, (void)mask;
    int is_named = path != NULL && *path != 0;
    struct file *file = is_named ? file_of(path) : at >= FIRST ? opened[at - FIRST].file : &files[OUTPUT];
    if (file == NULL || (is_named && !file->is_there))
        return fail(ENOENT);
    memset(to, 0, sizeof *to);
    to->stx_mask = STATX_BASIC_STATS, to->stx_mode = (file == &folder ? S_IFDIR : S_IFREG) | 0644, to->stx_size = file->size;
    return 0;
}

/* No file here is a link. */
int64_t memory_readlink(const char *path, char *to, size_t room)
{
    (void)to, (void)room;
    struct file *file = file_of(path);
    return file == NULL || !file->is_there ? fail(ENOENT) : fail(EINVAL);
}

int memory_pipe2(int *ends, int flags)
{
    (void)ends, (void)flags;
    return fail(EMFILE);
}

int memory_unlink(const char *path)
{
    struct file *file = file_of(path);
    if (file == NULL || !file->is_there)
        return fail(ENOENT);
    HOLDS(is_output(file));
    file->is_there = 0, file->size = 0;
    return 0;
}

int memory_rename(const char *from, const char *to)
{
    struct file *old = file_of(from), *new = file_of(to);
    if (old == NULL || !old->is_there || (new == NULL && (new = new_file(to)) == NULL))
        return fail(ENOENT);
    HOLDS(is_output(old) && is_output(new));
    new->is_there = 1, new->size = old->size;
    memcpy(new->bytes, old->bytes, old->size);
    return memory_unlink(from);
}

int memory_ftruncate(int number, int64_t size)
{
    HOLDS(number >= FIRST && opened[number - FIRST].file != NULL && is_output(opened[number - FIRST].file));
    if (size > MOST)
        return fail(ENOSPC);
    struct file *file = opened[number - FIRST].file;
    if ((size_t)size > file->size)
        memset(file->bytes + file->size, 0, (size_t)size - file->size);
    file->size = (size_t)size;
    return 0;
}

int memory_fsync(int number)
{
    return number < FIRST || opened[number - FIRST].file != NULL ? 0 : fail(EBADF);
}

int memory_fdatasync(int number)
{
    return memory_fsync(number);
}

int memory_fchmod(int number, unsigned mode)
{
    return (void)mode, memory_fsync(number);
}

int memory_flock(int number, int how)
{
    return (void)how, memory_fsync(number);
}

/* ---- A run, and what has to hold of it */

/* Gives a file a content. */
static void lay(int which, const void *content, size_t size)
{
    files[which].is_there = 1, files[which].size = size < MOST ? size : MOST;
    memcpy(files[which].bytes, content, files[which].size);
}

static void lay_text(int which, const char *text)
{
    lay(which, text, strlen(text));
}

/* Runs the program on a command line: its exit status. All memory has to be given back, and all files have to be closed. */
static int run(const char *const *line)
{
    for (int at = INPUTS; at < FILES; at++)
        files[at].size = 0, files[at].is_there = 0;
    words[0] = "pacboard", word_count = 1;
    for (; *line != NULL; line++)
        words[word_count++] = *line;
    asked = written = refused = 0;
    int status = program_main();
    HOLDS(blocks == 0);
    for (int at = 0; at < OPENED; at++)
        HOLDS(opened[at].file == NULL);
    for (int at = 0; at < BESIDE; at++)
        HOLDS(!beside[at].is_there);
    return status;
}

/* Whether a file is the text. */
static int is_text(int which, const char *text)
{
    return files[which].size == strlen(text) && memcmp(files[which].bytes, text, files[which].size) == 0;
}

/* Whether standard error is one line that begins so. */
static int is_told(const char *begin)
{
    const struct file *error = &files[ERROR];
    const uint8_t *end = memchr(error->bytes, '\n', error->size);
    return error->size > strlen(begin) && memcmp(error->bytes, begin, strlen(begin)) == 0 && end == error->bytes + error->size - 1;
}

static int are_empty(void)
{
    int is_so = 1;
    for (int at = INPUTS; at < ERROR; at++)
        is_so &= files[at].size == 0;
    return is_so;
}

/* A refused write is told of the output that has so many bytes. Text and report share a stream; of a state that isn't whole nothing may be left. */
static void judge_refused_write(void)
{
    char line[96];
    int is_so = 0;
    for (int at = INPUTS; at < OUTPUT; at++) {
        snprintf(line, sizeof line, "write fault %s after %zu bytes\n", files[at].told, files[at].size);
        is_so |= is_text(ERROR, line);
    }
    snprintf(line, sizeof line, "write fault text after %zu bytes\n", files[OUTPUT].size);
    HOLDS(is_so || is_text(ERROR, line) || is_told("write fault report after ") || (files[SAVED].size == 0 && is_told("write fault state after ")));
}

/* What the report tells of film and sound has to be so. */
static void judge_report(int status)
{
    unsigned long shown = 0, all = 0;
    char text[512];
    size_t size = files[OUTPUT].size, from = size < sizeof text - 1 ? 0 : size - (sizeof text - 1);
    memcpy(text, files[OUTPUT].bytes + from, size - from);
    text[size - from] = 0;
    const char *report = NULL;
    for (const char *at = strstr(text, "frames "); at != NULL; at = strstr(at + 1, "frames "))
        if (at == text || at[-1] == '\n')
            report = at;
    HOLDS(report != NULL && sscanf(report, "frames %lu of %lu\n", &shown, &all) == 2 && shown <= all);
    HOLDS(files[FRAMES].size == shown * PICTURE);
    HOLDS(status == 5 ? strstr(report, "\nstop S") != NULL : strstr(report, "\nend done\n") != NULL);
    uint32_t length;
    memcpy(&length, files[WAVE].bytes + 40, sizeof length);
    HOLDS(files[WAVE].size >= HEADER && length == files[WAVE].size - HEADER);
}

/* Holds a run against the page. */
static void judge(int command, int status)
{
    switch (status) {
    case 0: HOLDS(files[ERROR].size == 0); break;
    case 1: HOLDS(is_told("refused ") && are_empty()); break;
    case 3:
        if (is_told("read fault "))
            HOLDS(command == MANIFEST && are_empty());
        else
            HOLDS(refused > 0), judge_refused_write();
        break;
    case 4: HOLDS((refuses == MEMORY || refuses == MEMORY_ON) && refused > 0 && is_text(ERROR, "out of memory\n") && are_empty()); break;
    case 5: HOLDS(command != ASM && command != DIS && files[ERROR].size == 0); break;
    default: HOLDS(0);
    }
    HOLDS((refuses == WRITE && refused > 0) == (status == 3 && is_told("write fault ")) || refuses != WRITE);
    if (command == ASM && status == 0)
        HOLDS(files[ROM].size == 16384 && files[LISTING].size > 0);
    if (command != ASM && command != DIS && (status == 0 || status == 5))
        judge_report(status);
}

/* Keeps what a run has left, from one of the files on. */
static void keep(void)
{
    for (int at = INPUTS; at < FILES; at++) {
        before[at].bytes = realloc(before[at].bytes, files[at].size + 1);
        memcpy(before[at].bytes, files[at].bytes, files[at].size);
        before[at].size = files[at].size, before[at].is_there = files[at].is_there;
    }
}

/* Runs a command line twice. */
static int run_twice(int command, const char *const *line)
{
    int status = run(line);
    judge(command, status);
    keep();
    HOLDS(run(line) == status);
    for (int at = INPUTS; at < FILES; at++)
        HOLDS(files[at].size == before[at].size && memcmp(files[at].bytes, before[at].bytes, files[at].size) == 0);
    return status;
}

#define RUN_LINE "--source", "source", "--set", "set.toml", "--script", "script", "--frames", "frames", "--wave", "wave", "--listing", "listing"
static const char *const lines[][WORDS] = {
    [ASM] = {"asm", "source", "--rom", "rom", "--listing", "listing"}, [DIS] = {"dis", "source"}, [RUN] = {"run", RUN_LINE, "--save", "saved"},
    [DEBUG] = {"debug", "--commands", "commands", RUN_LINE}, [CUT] = {"run", RUN_LINE, "--load", "loaded", "--save", "saved"},
    [MANIFEST] = {"run", RUN_LINE}, [COMMANDS] = {"debug", "--commands", "commands", RUN_LINE},
};

/* Writes a script: so many frames, from one on, each with inputs that follow from a number. */
static void lay_script(unsigned from, unsigned to, unsigned number)
{
    static const char *const held[] = {"-", "P1_UP", "P1_LEFT,COIN1", "START1", "P2_DOWN", "RACK_TEST", "CREDIT,COCKTAIL", "START2,P1_RIGHT"};
    char text[256] = "";
    for (unsigned at = from; at < to; at++)
        snprintf(text + strlen(text), sizeof text - strlen(text), "1 %s\n", held[(number >> at) % 8]);
    lay_text(SCRIPT, text);
}

/* Whether the kept part of a file and then what it has now, without so many bytes at its begin, are what another run has left. */
static int are_parts(int which, const uint8_t *whole, size_t size, size_t skipped)
{
    const struct file *now = &files[which];
    size_t first = before[which].size;
    return first >= skipped && now->size >= skipped && first + now->size - skipped == size && memcmp(whole, before[which].bytes, first) == 0
        && memcmp(whole + first, now->bytes + skipped, now->size - skipped) == 0;
}

/* A run at once, and the same in two parts. */
static void cut(unsigned number)
{
    static uint8_t film[MOST], sound[MOST], state[STATE];
    unsigned frames = 2 + number % 3, at = 1 + number / 3 % (frames - 1);
    lay_script(0, frames, number);
    if (run_twice(RUN, lines[RUN]) != 0)
        return;
    size_t film_size = files[FRAMES].size, sound_size = files[WAVE].size;
    memcpy(film, files[FRAMES].bytes, film_size), memcpy(sound, files[WAVE].bytes, sound_size);
    HOLDS(files[SAVED].size == STATE);
    memcpy(state, files[SAVED].bytes, STATE);
    lay_script(0, at, number);
    HOLDS(run(lines[RUN]) == 0);
    keep();
    lay(LOADED, files[SAVED].bytes, files[SAVED].size);
    lay_script(at, frames, number);
    HOLDS(run(lines[CUT]) == 0);
    /* the header of the first part's sound tells its own length */
    memcpy(before[WAVE].bytes, sound, HEADER);
    HOLDS(are_parts(FRAMES, film, film_size, 0) && are_parts(WAVE, sound, sound_size, HEADER));
    HOLDS(files[SAVED].size == STATE && memcmp(files[SAVED].bytes, state, STATE) == 0);
}

/* Lays the usual set, whose parts have something in each place. */
static void lay_set(void)
{
    static const struct { int which; size_t size; } parts[] = {{TILES, 4096}, {SPRITES, 4096}, {COLOURS, 32}, {LOOKUP, 256}, {WAVEFORM, 256}};
    static const char manifest[] = "tiles.file = 'tiles.rom'\nsprites.file = 'sprites.rom'\ncolours.file = 'colours.prom'\n"
                                   "lookup.file = 'lookup.prom'\nwave.file = 'wave.prom'\n";
    for (size_t part = 0; part < sizeof parts / sizeof *parts; part++) {
        files[parts[part].which].is_there = 1, files[parts[part].which].size = parts[part].size;
        for (size_t at = 0; at < parts[part].size; at++)
            files[parts[part].which].bytes[at] = (uint8_t)(at * 37 + at / 256);
    }
    lay_text(MANIFEST_FILE, manifest);
}

int LLVMFuzzerTestOneInput(const uint8_t *data, size_t size)
{
    if (size < 2)
        return 0;
    int command = data[0] % 8 < 7 ? data[0] % 8 : CUT;
    const uint8_t *text = data + 2, *mark = memchr(text, SEPARATOR, size - 2);
    size_t first = mark == NULL ? size - 2 : (size_t)(mark - text), rest = mark == NULL ? 0 : size - 3 - first;
    refuses = command == CUT ? NOTHING : data[0] >> 3 & 3, refused_at = 1 + data[1];
    lay_set();
    lay(SOURCE, text, first);
    lay_script(0, 1 + data[1] % 3, data[1]);
    if (command == MANIFEST)
        lay(MANIFEST_FILE, text, first), lay(SOURCE, mark == NULL ? text : mark + 1, rest);
    if (command == COMMANDS)
        lay(SESSION, text, first),
        lay_text(SOURCE, "LD A,42H\nLD (4040H),A\nLOOP: INC A\nLD (5040H),A\nCALL DOWN\nJR LOOP\nDOWN: PUSH AF\nPOP BC\nRET\n");
    if (command == DEBUG)
        lay(SESSION, mark == NULL ? text : mark + 1, rest);
    if (command == RUN && mark != NULL)
        lay(SCRIPT, mark + 1, rest);
    if (command == CUT)
        cut(data[1]);
    else
        run_twice(command, lines[command]);
    return 0;
}
