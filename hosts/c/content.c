/* Writes the ROM block of what the players are handed (content.h) to standard output:
 *
 *   content FILE
 *
 * The exit status is 0, 3 where it can't be written, and 4 where the content is refused. */
#include "content.h"

int main(int count, char **word)
{
    static uint8_t roms[PAC_ROMS_SIZE];
    const char *wrong = count == 2 ? content_read(word[1], roms) : "usage: content FILE";
    if (wrong != NULL)
        return fprintf(stderr, "%s\n", wrong), 4;
    return fwrite(roms, 1, sizeof roms, stdout) == sizeof roms && fflush(stdout) == 0 ? 0 : 3;
}
