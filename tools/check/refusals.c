/* What tools/check/refusals preloads into the program: it stands before malloc, realloc and write, and has each call refused in turn.
 *
 * At a call that may be refused the program forks. The child is the run in which it is refused: it goes on to its end, its status goes
 * to tools/check/refusals, which looks at what it left and answers; then the files are put back as they were, and the parent goes on as if
 * nothing had been. So one run tries every refusal of a kind, until there is none left. Memory that is asked for after the first byte
 * of an output is told as the status -1, and blocks that are still out at a run's end as -2. Only calls from the program's own code count,
 * not those within the C library. After a refusal short writes are answered one by one, but done many at a time: what is
 * left is the same, and writes of 7 bytes took most of the time. Where writes are interrupted no call is refused: each write fails with
 * EINTR twice, and is done at the third try. An output that takes its place once it is whole has a draft, which the child renames or
 * removes: it stays under a name that ends with .kept, too, by which tools/check/refusals sees what it took, until the parent has it again.
 * Where growth is refused, every call for memory is, whoever makes it, from the first byte of an output on, and the kernel gives the process
 * no more: brk, mmap and mremap fail.
 */
#define _GNU_SOURCE
#include <errno.h>
#include <fcntl.h>
#include <linux/filter.h>
#include <linux/seccomp.h>
#include <link.h>
#include <stdarg.h>
#include <stddef.h>
#include <stdio.h>
#include <stdlib.h>
#include <string.h>
#include <sys/auxv.h>
#include <sys/prctl.h>
#include <sys/socket.h>
#include <sys/stat.h>
#include <sys/syscall.h>
#include <sys/wait.h>
#include <unistd.h>

enum { DESCRIPTORS = 64, LONGEST = 256, HELD = 4096, FEW = 7 }; /* the most descriptors; bytes of a path, of what is held, and of short writes */
enum { ONE = '1', REST = 'r', WRITE = 'w', INTERRUPTED = 'i', GROWTH = 'g', TRIES = 3, LATE = -1, OUT = -2 };

void *__libc_malloc(size_t size);
void *__libc_realloc(void *block, size_t size);
void __libc_free(void *block);

static ElfW(Addr) first, last;    /* the program's own code */
static int kind, talk;            /* what is refused: a call for memory, it and all after it, or a write; and to whom it is told */
static unsigned tries;            /* how often a write was tried, where each is interrupted at first */
static size_t most = (size_t)-1;  /* the bytes that a write takes */
static int refused, begun;        /* whether a call was refused, and whether an output has a byte */
static long blocks;               /* how many blocks the program has been given and hasn't given back */

/* Tells a status, and waits for the answer. */
static void tell(int status)
{
    char answer;
    if (send(talk, &status, sizeof status, 0) < 0 || recv(talk, &answer, 1, 0) != 1)
        _exit(120);
}

/* What is known of the program's descriptors since they were opened: whether one is open, whether it's that of the output whose writes are
 * refused, and the path of a draft. The kernel would have to be asked at each refusal, of each of them. */
static char is_open[DESCRIPTORS] = {1, 1, 1}, is_output[DESCRIPTORS], drafts[DESCRIPTORS][LONGEST], kept[LONGEST + sizeof ".kept"];
static const char *output; /* the path of that output */

/* Writes the other name of a draft. */
static void name_kept(const char *path)
{
    size_t length = strlen(path);
    memcpy(kept, path, length);
    memcpy(kept + length, ".kept", sizeof ".kept");
}

/* Whether a descriptor's file has this path. */
static int has_path(int file, const char *path)
{
    struct stat here, there;
    return fstat(file, &here) == 0 && stat(path, &there) == 0 && here.st_dev == there.st_dev && here.st_ino == there.st_ino;
}

__attribute__((constructor)) static void prepare(void)
{
    const ElfW(Phdr) *header = (const void *)getauxval(AT_PHDR);
    ElfW(Addr) base = (ElfW(Addr))header - header->p_vaddr;
    for (unsigned long left = getauxval(AT_PHNUM); left > 0; left--, header++)
        if (header->p_type == PT_LOAD && header->p_flags & PF_X)
            first = base + header->p_vaddr, last = first + header->p_memsz;
    talk = atoi(getenv("REFUSALS_TALK"));
    kind = *getenv("REFUSALS_KIND");
    output = getenv("REFUSALS_OUTPUT");
    if (*getenv("REFUSALS_MOST"))
        most = atoi(getenv("REFUSALS_MOST"));
    for (int file = 0; file <= STDERR_FILENO; file++)
        is_output[file] = has_path(file, output);
}

/* Gives each draft another name, which its removal leaves; one that has taken its place is none any more. */
static void keep_drafts(void)
{
    for (int file = 0; file < DESCRIPTORS; file++) {
        if (drafts[file][0] == 0)
            continue;
        name_kept(drafts[file]);
        if (link(drafts[file], kept) == 0)
            continue;
        if (errno != ENOENT)
            _exit(123);
        drafts[file][0] = 0;
    }
}

/* Gives each draft its name again; where it has taken its place, an empty file is there in its stead. */
static void put_drafts_back(void)
{
    for (int file = 0; file < DESCRIPTORS; file++) {
        if (drafts[file][0] == 0)
            continue;
        name_kept(drafts[file]);
        unlink(drafts[file]);
        if (rename(kept, drafts[file]) != 0)
            _exit(123);
        *strstr(kept, ".unfinished-") = 0;
        if (has_path(file, kept) && (unlink(kept) != 0 || close(creat(kept, 0644)) != 0))
            _exit(123);
    }
}

/* Whether this call is refused, which it is in the child. */
static int is_refused(void)
{
    off_t at[DESCRIPTORS];
    int status;
    if (refused)
        return kind == REST;
    for (int file = 0; file < DESCRIPTORS; file++)
        at[file] = is_open[file] ? lseek(file, 0, SEEK_CUR) : -1;
    keep_drafts();
    refused = 1;
    pid_t child = fork();
    if (child == 0)
        return 1;
    if (child < 0 || waitpid(child, &status, 0) < 0)
        _exit(121);
    refused = 0;
    tell(status);
    put_drafts_back();
    for (int file = 0; file < DESCRIPTORS; file++)
        if (at[file] >= 0 && (ftruncate(file, at[file]) == 0 || errno == EINVAL))
            lseek(file, at[file], SEEK_SET);
    return 0;
}

/* Whether a call comes from the program's own code. */
static int is_own(void *from)
{
    return (ElfW(Addr))from >= first && (ElfW(Addr))from < last;
}

/* Whether a call for memory from this place is refused. */
static int is_scarce(void *from)
{
    if (kind == GROWTH)
        return begun;
    if (!is_own(from))
        return 0;
    if (begun)
        tell(LATE);
    return kind != WRITE && kind != INTERRUPTED && is_refused();
}

void *malloc(size_t size)
{
    void *from = __builtin_return_address(0), *block = is_scarce(from) ? NULL : __libc_malloc(size);
    blocks += block && is_own(from);
    return block ? block : (errno = ENOMEM, NULL);
}

void *realloc(void *block, size_t size)
{
    void *from = __builtin_return_address(0), *moved = is_scarce(from) ? NULL : __libc_realloc(block, size);
    blocks += moved && !block && is_own(from);
    return moved ? moved : (errno = ENOMEM, NULL);
}

/* After a refused write of a few bytes a block is counted alone: to give back what the parent has, too, the kernel has to copy its pages, most
 * of all of a debugger's history. The same ways to the end give their blocks back where writes take more. */
void free(void *block)
{
    blocks -= block && is_own(__builtin_return_address(0));
    if (!refused || kind != WRITE || most > FEW)
        __libc_free(block);
}

/* Has the kernel give this process no more memory. */
static void grow_no_more(void)
{
    static const int calls[] = {SYS_brk, SYS_mmap, SYS_mremap};
    enum { CALLS = sizeof calls / sizeof *calls };
    struct sock_filter rules[CALLS + 3] = {BPF_STMT(BPF_LD | BPF_W | BPF_ABS, offsetof(struct seccomp_data, nr))};
    for (int at = 0; at < CALLS; at++)
        rules[at + 1] = (struct sock_filter)BPF_JUMP(BPF_JMP | BPF_JEQ | BPF_K, calls[at], CALLS - at, 0);
    rules[CALLS + 1] = (struct sock_filter)BPF_STMT(BPF_RET | BPF_K, SECCOMP_RET_ALLOW);
    rules[CALLS + 2] = (struct sock_filter)BPF_STMT(BPF_RET | BPF_K, SECCOMP_RET_ERRNO | ENOMEM);
    struct sock_fprog filter = {CALLS + 3, rules};
    if (prctl(PR_SET_NO_NEW_PRIVS, 1, 0, 0, 0) != 0 || prctl(PR_SET_SECCOMP, SECCOMP_MODE_FILTER, &filter) != 0)
        _exit(122);
}

static char held[HELD]; /* what short writes after a refusal have taken and the file hasn't */
static size_t count_held;
static int held_for; /* whose that is */

/* Writes what is held. */
static void put_held(void)
{
    if (count_held != 0 && syscall(SYS_write, held_for, held, count_held) != (ssize_t)count_held)
        _exit(124);
    count_held = 0;
}

/* Takes the first bytes of a write, which come to the file later: when it's another's turn, when a file is opened, cut
 * or closed, or at the end. */
static ssize_t hold(int file, const void *bytes, size_t count)
{
    if (file != held_for || count_held + count > HELD)
        put_held();
    held_for = file;
    memcpy(held + count_held, bytes, count);
    count_held += count;
    return count;
}

/* Writes what is held, and tells blocks that are out, where the program ends. */
__attribute__((destructor)) static void finish(void)
{
    put_held();
    if (blocks != 0)
        tell(OUT);
}

int open(const char *path, int flags, ...)
{
    va_list more;
    va_start(more, flags);
    put_held();
    int file = (int)syscall(SYS_openat, AT_FDCWD, path, flags, flags & O_CREAT ? va_arg(more, int) : 0);
    va_end(more);
    if (file >= DESCRIPTORS || strlen(path) >= LONGEST)
        _exit(125);
    if (file >= 0) {
        is_open[file] = 1;
        is_output[file] = has_path(file, output);
        strcpy(drafts[file], strstr(path, ".unfinished-") ? path : "");
    }
    return file;
}

int ftruncate(int file, off_t length)
{
    put_held();
    return (int)syscall(SYS_ftruncate, file, length);
}

int close(int file)
{
    put_held();
    if (file >= 0 && file < DESCRIPTORS)
        is_open[file] = is_output[file] = drafts[file][0] = 0;
    return (int)syscall(SYS_close, file);
}

ssize_t write(int file, const void *bytes, size_t count)
{
    if (kind == GROWTH && !begun && file != STDERR_FILENO)
        grow_no_more();
    begun |= file != STDERR_FILENO;
    if (kind == INTERRUPTED && ++tries % TRIES != 0)
        return errno = EINTR, -1;
    if (kind == WRITE && !refused && file < DESCRIPTORS && is_output[file] && is_refused())
        return errno = ENOSPC, -1;
    if (refused && count > most)
        return hold(file, bytes, most);
    put_held();
    return syscall(SYS_write, file, bytes, count < most ? count : most);
}

ssize_t __write(int file, const void *bytes, size_t count)
{
    return write(file, bytes, count);
}
