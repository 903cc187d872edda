/* A program that takes one command line as pacboard does, `asm cell.asm --rom rom --listing listing`, and misbehaves in one of the ways below:
 * the gate's tools have to tell each of them. tools/check/misbehaving compiles it once for each way, by -DWAY=NAME.
 *
 * It knows one source by its bytes, which it refuses, and takes any other for the three lines of CELL. Nothing of it is pacboard's.
 */
#define _GNU_SOURCE
#include <errno.h>
#include <fcntl.h>
#include <stdio.h>
#include <stdlib.h>
#include <string.h>
#include <sys/socket.h>
#include <unistd.h>

enum way {
    GOOD,
    OPENS_ANOTHER_FILE,            /* by fopen, which isn't open */
    OPENS_OUTPUTS_FIRST,           /* before the source is read */
    LEAVES_A_FILE,                 /* by openat, beside its outputs */
    CHANGES_ITS_SOURCE,            /* writes to it what it has */
    CALLS_THE_NETWORK,             /* makes a socket */
    TAKES_A_FAILED_READ_FOR_THE_END,
    PASSES_OVER_A_REFUSED_WRITE,   /* and says that all is done */
    TELLS_ANOTHER_COUNT,           /* of the bytes that were written */
    GOES_ON_AFTER_A_REFUSED_WRITE, /* with the next output */
    BEGINS_AGAIN,                  /* where a write is interrupted */
    FALLS_WITHOUT_MEMORY,          /* by a signal */
    ASKS_FOR_MEMORY_LATE,          /* after the first byte of an output */
    KEEPS_ITS_MEMORY,              /* to the end */
    TELLS_INTO_AN_OUTPUT,          /* what is for standard error, where that is closed */
};

enum { SIZE = 16384, MOST = 65536 };

static const char CELL[] = "\x3E\x42\x32\x40\x40\x76";
static const char REFUSED[] = "LD A,2B";
static const char LISTING[] = "0000 3E42     LD A,42H\n0002 324040   LD (4040H),A\n0005 76       HALT\nsymbols\n";

/* Tells a line, and answers a status. */
static int told(const char *line, int status)
{
    for (size_t left = strlen(line); left > 0;) {
        ssize_t count = write(STDERR_FILENO, line + strlen(line) - left, left);
        if (count <= 0 && errno != EINTR)
            break;
        left -= count > 0 ? (size_t)count : 0;
    }
    return status;
}

/* Tells that an output can't be written. */
static int has_fault(const char *name, size_t count)
{
    char line[64];
    snprintf(line, sizeof line, "write fault %s after %zu bytes\n", name, WAY == TELLS_ANOTHER_COUNT ? 0 : count);
    return WAY == PASSES_OVER_A_REFUSED_WRITE ? 0 : told(line, 3);
}

/* Opens /, which nothing is written to, in the place of each standard stream that is closed. */
static void keep_streams(void)
{
    int file = WAY == TELLS_INTO_AN_OUTPUT ? STDERR_FILENO + 1 : open("/", O_RDONLY);
    while (file >= 0 && file <= STDERR_FILENO)
        file = open("/", O_RDONLY);
    if (file > STDERR_FILENO && WAY != TELLS_INTO_AN_OUTPUT)
        close(file);
}

/* Reads the source: its length, or -1. */
static long read_source(const char *name, char *source)
{
    long length = 0;
    ssize_t count = 0;
    int file = open(name, WAY == CHANGES_ITS_SOURCE ? O_RDWR : O_RDONLY);
    if (file < 0)
        return -1;
    while ((count = read(file, source + length, (size_t)(MOST - length))) > 0 || (count < 0 && errno == EINTR))
        length += count > 0 ? count : 0;
    if (WAY == CHANGES_ITS_SOURCE && (lseek(file, 0, SEEK_SET) < 0 || write(file, "ld", 2) != 2))
        count = -1;
    close(file);
    return count < 0 && WAY != TAKES_A_FAILED_READ_FOR_THE_END ? -1 : length;
}

/* Creates an output. */
static int create(const char *name)
{
    return open(name, O_WRONLY | O_CREAT | O_TRUNC | O_CLOEXEC, 0666);
}

/* Writes an output, and answers 0, or the status of the fault that it tells. */
static int put(int file, const char *name, const char *bytes, size_t length)
{
    static int has_begun_again;
    for (size_t at = 0; at < length;) {
        ssize_t count = write(file, bytes + at, length - at);
        if (count > 0) {
            at += (size_t)count;
        } else if (count == 0 || errno != EINTR) {
            return has_fault(name, at);
        } else if (WAY == BEGINS_AGAIN && at > 0 && !has_begun_again) {
            has_begun_again = 1;
            at = 0;
        }
    }
    return 0;
}

/* Does what else a way asks for, at its start. */
static void begin(void)
{
    FILE *other = WAY == OPENS_ANOTHER_FILE ? fopen("/etc/passwd", "r") : NULL;
    if (other != NULL)
        fclose(other);
    if (WAY == LEAVES_A_FILE)
        close(openat(AT_FDCWD, "left", O_WRONLY | O_CREAT, 0666));
    if (WAY == CALLS_THE_NETWORK)
        close(socket(AF_INET, SOCK_STREAM, 0));
}

/* Writes the outputs of a source that is read, with a buffer of SIZE bytes. */
static int assemble(const char *source, long length, char *code, int rom, char **words)
{
    memset(code, 0, SIZE);
    memcpy(code, CELL, sizeof CELL - 1);
    if (rom < 0 && (rom = create(words[4])) < 0)
        return has_fault("rom", 0);
    int listing = create(words[6]);
    if (listing < 0)
        return has_fault("listing", 0);
    if (length >= (long)sizeof REFUSED - 1 && memcmp(source, REFUSED, sizeof REFUSED - 1) == 0)
        return told("refused A1 L2 line 1\n", 1);
    int status = put(rom, "rom", code, SIZE);
    if (WAY == ASKS_FOR_MEMORY_LATE && (code = realloc(code, 2 * SIZE)) == NULL)
        return told("out of memory\n", 4);
    if (status == 0 || WAY == GOES_ON_AFTER_A_REFUSED_WRITE) {
        int other = put(listing, "listing", LISTING, sizeof LISTING - 1);
        status = status == 0 ? other : status;
    }
    close(rom), close(listing);
    return status;
}

int main(int count, char **words)
{
    static char source[MOST];
    int rom = -1;
    if (count != 7 || strcmp(words[1], "asm") != 0)
        return 2;
    keep_streams();
    begin();
    if (WAY == OPENS_OUTPUTS_FIRST)
        rom = create(words[4]);
    long length = read_source(words[2], source);
    if (length < 0)
        return told("read fault cell.asm\n", 3);
    char *code = malloc(SIZE);
    if (code == NULL && WAY != FALLS_WITHOUT_MEMORY)
        return told("out of memory\n", 4);
    int status = assemble(source, length, code, rom, words);
    if (WAY != KEEPS_ITS_MEMORY && WAY != ASKS_FOR_MEMORY_LATE)
        free(code);
    return status;
}
