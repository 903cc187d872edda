/* What tools/check/coverage links to a program or a library whose blocks are counted: it keeps in a file which of them any run has come to.
 *
 * The file KEPT has BLOCKS bytes, and is mapped in the place of the array `blocks_run`, of which each block sets its byte to 1: so runs side
 * by side set the same bytes to the same value, and what a run did that was killed is kept, too. This is a shared library: what it does is
 * done before the program's first instruction, where traced.c doesn't yet look, and by no call of the C library that a tool stands before.
 */
#define _GNU_SOURCE
#include <fcntl.h>
#include <stdint.h>
#include <sys/mman.h>
#include <sys/syscall.h>
#include <unistd.h>

enum { PAGE = 4096, SIZE = (BLOCKS + PAGE - 1) / PAGE * PAGE };

uint8_t blocks_run[SIZE] __attribute__((aligned(PAGE)));

__attribute__((constructor)) static void keep(void)
{
    int file = (int)syscall(SYS_open, KEPT, O_RDWR);
    if (file < 0)
        return;
    syscall(SYS_mmap, blocks_run, (size_t)SIZE, PROT_READ | PROT_WRITE, MAP_SHARED | MAP_FIXED, file, 0L);
    syscall(SYS_close, file);
}
