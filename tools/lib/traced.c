/* Runs a program, writes down each system call that it makes from its first instruction on, and refuses some of them, or stops it at one.
 *
 *   traced LIST [HOW].. PROGRAM WORD..
 *
 *   -r COUNT:ERROR   the call of this number, counted from 1, isn't made, and answers with this error
 *   -p PATH:ERROR    nor is any that opens this path
 *   -s COUNT:SIGNAL  the program gets this signal where it is about to make the call of this number
 *
 * What the dynamic loader does before the program's first instruction isn't counted. LIST gets a line for each call: its name, or its number
 * where it has none here; what it answers, `-ERROR` where it fails and `none` where it doesn't return; and what matters of its arguments: a
 * path, a path and the flags, a descriptor, a descriptor and a count, two paths. The exit status is the program's, or 128 and the signal that
 * ended it; 125 where it can't be traced.
 */
#define _GNU_SOURCE
#include <elf.h>
#include <errno.h>
#include <fcntl.h>
#include <signal.h>
#include <stdint.h>
#include <stdio.h>
#include <stdlib.h>
#include <string.h>
#include <sys/ptrace.h>
#include <sys/syscall.h>
#include <sys/uio.h>
#include <sys/user.h>
#include <sys/wait.h>
#include <unistd.h>

enum { MOST = 16, FAILED = 125, LENGTH = 4096 };

/* What is written down of a call's arguments. */
enum shape { NOTHING, PATH, PATH_FLAGS, AT_PATH, AT_PATH_FLAGS, FILE_ONLY, FILE_COUNT, TWO_PATHS, TWO_AT_PATHS, NUMBER };

struct call {
    long number;
    const char *name;
    enum shape shape;
};

#define CALL(name, shape) {SYS_##name, #name, shape}
static const struct call calls[] = {
    CALL(read, FILE_COUNT), CALL(write, FILE_COUNT), CALL(open, PATH_FLAGS), CALL(close, FILE_ONLY), CALL(stat, PATH), CALL(fstat, FILE_ONLY),
    CALL(lstat, PATH), CALL(poll, NOTHING), CALL(lseek, FILE_ONLY), CALL(mmap, NOTHING), CALL(mprotect, NOTHING), CALL(munmap, NOTHING),
    CALL(brk, NOTHING), CALL(rt_sigaction, NUMBER), CALL(rt_sigprocmask, NUMBER), CALL(ioctl, FILE_ONLY), CALL(pread64, FILE_COUNT),
    CALL(pwrite64, FILE_COUNT), CALL(readv, FILE_COUNT), CALL(writev, FILE_COUNT), CALL(access, PATH), CALL(mremap, NOTHING),
    CALL(madvise, NOTHING), CALL(dup, FILE_ONLY), CALL(dup2, FILE_ONLY), CALL(dup3, FILE_ONLY), CALL(sendfile, FILE_ONLY),
    CALL(socket, NOTHING), CALL(clone, NOTHING), CALL(clone3, NOTHING), CALL(fork, NOTHING), CALL(vfork, NOTHING), CALL(execve, PATH),
    CALL(exit, NUMBER), CALL(exit_group, NUMBER), CALL(kill, NOTHING), CALL(fcntl, FILE_ONLY), CALL(fsync, FILE_ONLY),
    CALL(fdatasync, FILE_ONLY), CALL(syncfs, FILE_ONLY), CALL(truncate, PATH), CALL(ftruncate, FILE_ONLY), CALL(getcwd, NOTHING),
    CALL(chdir, PATH), CALL(rename, TWO_PATHS), CALL(renameat, TWO_AT_PATHS), CALL(renameat2, TWO_AT_PATHS), CALL(mkdir, PATH),
    CALL(mkdirat, AT_PATH), CALL(rmdir, PATH), CALL(creat, PATH), CALL(link, TWO_PATHS), CALL(linkat, TWO_AT_PATHS), CALL(unlink, PATH),
    CALL(unlinkat, AT_PATH), CALL(symlink, TWO_PATHS), CALL(readlink, PATH), CALL(readlinkat, AT_PATH), CALL(chmod, PATH),
    CALL(fchmod, FILE_ONLY), CALL(fchmodat, AT_PATH), CALL(sigaltstack, NOTHING), CALL(getrandom, NOTHING), CALL(clock_gettime, NOTHING),
    CALL(openat, AT_PATH_FLAGS), CALL(newfstatat, AT_PATH), CALL(statx, AT_PATH), CALL(faccessat, AT_PATH), CALL(faccessat2, AT_PATH),
    CALL(prlimit64, NOTHING), CALL(futex, NOTHING), CALL(getdents64, FILE_ONLY), CALL(fallocate, FILE_ONLY), CALL(copy_file_range, FILE_ONLY),
};

struct refusal {
    const char *path; /* NULL where it is of the call `count` */
    long count, error;
};

static struct refusal refusals[MOST];
static int refusal_count;
static long signal_at, signal_number;
static FILE *list;

static int wait_for(pid_t child);

/* Ends where the program can't be traced. */
static void fail(const char *what)
{
    fprintf(stderr, "traced: %s: %s\n", what, strerror(errno));
    _exit(FAILED);
}

/* Passes where a request was done; ends with the program, where it was ended by a signal meanwhile. */
static void done_or_gone(pid_t child, long answer, const char *what)
{
    if (answer < 0 && errno == ESRCH)
        wait_for(child);
    if (answer < 0)
        fail(what);
}

/* A text of the program's memory, as far as it can be read. */
static const char *text_at(pid_t child, uint64_t at, char *text)
{
    size_t length = 0;
    while (at != 0 && length < LENGTH - 1) {
        size_t step = 256 - (at + length) % 256; /* none goes past a page */
        if (step > LENGTH - 1 - length)
            step = LENGTH - 1 - length;
        struct iovec here = {text + length, step}, there = {(void *)(at + length), step};
        if (process_vm_readv(child, &here, 1, &there, 1, 0) != (ssize_t)step)
            break;
        const char *end = memchr(text + length, 0, step);
        if (end != NULL)
            return text;
        length += step;
    }
    text[length] = 0;
    return text;
}

/* What is known of the call of a number. */
static const struct call *call_of(long number)
{
    for (size_t at = 0; at < sizeof calls / sizeof *calls; at++)
        if (calls[at].number == number)
            return &calls[at];
    return NULL;
}

/* The register that has the path which a call opens; 0 where it opens none. */
static uint64_t path_opened(const struct user_regs_struct *regs)
{
    switch ((long)regs->orig_rax) {
    case SYS_open: case SYS_creat: return regs->rdi;
    case SYS_openat: return regs->rsi;
    default: return 0;
    }
}

/* The error with which this call is refused; 0 where it isn't. */
static long error_of(pid_t child, const struct user_regs_struct *regs, long count)
{
    char text[LENGTH];
    uint64_t path = path_opened(regs);
    for (int at = 0; at < refusal_count; at++) {
        const struct refusal *one = &refusals[at];
        if (one->path == NULL ? one->count == count : path != 0 && strcmp(text_at(child, path, text), one->path) == 0)
            return one->error;
    }
    return 0;
}

/* Writes down a call, whose arguments are those of its beginning. */
static void write_down(pid_t child, const struct user_regs_struct *regs, const char *answer)
{
    char one[LENGTH], two[LENGTH];
    const struct call *call = call_of((long)regs->orig_rax);
    if (call == NULL) {
        fprintf(list, "%ld\t%s\n", (long)regs->orig_rax, answer);
        return;
    }
    fprintf(list, "%s\t%s", call->name, answer);
    switch (call->shape) {
    case NOTHING: break;
    case PATH: fprintf(list, "\t%s", text_at(child, regs->rdi, one)); break;
    case PATH_FLAGS: fprintf(list, "\t%s\t%llu", text_at(child, regs->rdi, one), regs->rsi); break;
    case AT_PATH: fprintf(list, "\t%s\t%d", text_at(child, regs->rsi, one), (int)regs->rdi); break;
    case AT_PATH_FLAGS: fprintf(list, "\t%s\t%llu", text_at(child, regs->rsi, one), regs->rdx); break;
    case FILE_ONLY: fprintf(list, "\t%d", (int)regs->rdi); break;
    case FILE_COUNT: fprintf(list, "\t%d\t%llu", (int)regs->rdi, regs->rdx); break;
    case TWO_PATHS: fprintf(list, "\t%s\t%s", text_at(child, regs->rdi, one), text_at(child, regs->rsi, two)); break;
    case TWO_AT_PATHS: fprintf(list, "\t%s\t%s", text_at(child, regs->rsi, one), text_at(child, regs->r10, two)); break;
    case NUMBER: fprintf(list, "\t%lld", (long long)regs->rdi); break;
    }
    putc('\n', list);
}

/* Waits for the program: its status. It ends with it, where the program does. */
static int wait_for(pid_t child)
{
    int status;
    if (waitpid(child, &status, 0) < 0)
        fail("the program is gone");
    if (!WIFEXITED(status) && !WIFSIGNALED(status))
        return status;
    if (fclose(list) != 0)
        fail("the list can't be written");
    exit(WIFEXITED(status) ? WEXITSTATUS(status) : 128 + WTERMSIG(status));
}

/* Where the program's own code begins. */
static uint64_t entry_of(pid_t child)
{
    char name[64];
    Elf64_auxv_t one;
    snprintf(name, sizeof name, "/proc/%d/auxv", (int)child);
    FILE *file = fopen(name, "rb");
    while (file != NULL && fread(&one, sizeof one, 1, file) == 1)
        if (one.a_type == AT_ENTRY)
            return fclose(file), one.a_un.a_val;
    fail(name);
    return 0;
}

/* Lets the dynamic loader work, up to the program's first instruction. */
static void pass_loader(pid_t child)
{
    uint64_t entry = entry_of(child);
    struct user_regs_struct regs;
    errno = 0;
    long code = ptrace(PTRACE_PEEKTEXT, child, entry, 0);
    if (errno != 0 || ptrace(PTRACE_POKETEXT, child, entry, (code & ~0xFFL) | 0xCC) < 0 || ptrace(PTRACE_CONT, child, 0, 0) < 0)
        fail("its first instruction");
    int status = wait_for(child);
    if (!WIFSTOPPED(status) || WSTOPSIG(status) != SIGTRAP || ptrace(PTRACE_GETREGS, child, 0, &regs) < 0)
        fail("its first instruction");
    regs.rip = entry;
    if (ptrace(PTRACE_POKETEXT, child, entry, code) < 0 || ptrace(PTRACE_SETREGS, child, 0, &regs) < 0)
        fail("its first instruction");
}

/* Goes on to the next stop at a system call. Signals on the way go to the program. */
static void go_on(pid_t child, long pending)
{
    for (;;) {
        done_or_gone(child, ptrace(PTRACE_SYSCALL, child, 0, pending), "a step");
        int status = wait_for(child);
        if (WIFSTOPPED(status) && WSTOPSIG(status) == (SIGTRAP | 0x80))
            return;
        pending = WIFSTOPPED(status) ? WSTOPSIG(status) : 0;
    }
}

/* What a call answers that is refused: the error, or, of brk, the end of the heap as it stands. */
static unsigned long long refused_answer(const struct user_regs_struct *begun, long error, uint64_t heap)
{
    return begun->orig_rax == SYS_brk ? heap : (unsigned long long)-error;
}

/* Follows the program from call to call. */
static void follow(pid_t child)
{
    struct user_regs_struct begun, done;
    uint64_t heap = 0; /* its end, once it was asked for */
    char answer[32];
    for (long count = 1;; count++) {
        go_on(child, 0);
        done_or_gone(child, ptrace(PTRACE_GETREGS, child, 0, &begun), "a call");
        if (count == signal_at)
            done_or_gone(child, kill(child, (int)signal_number), "the signal");
        long error = begun.orig_rax == SYS_brk && heap == 0 ? 0 : error_of(child, &begun, count);
        if (begun.orig_rax == SYS_exit_group || begun.orig_rax == SYS_exit)
            write_down(child, &begun, "none");
        done = begun;
        done.orig_rax = (unsigned long long)-1;
        if (error != 0)
            done_or_gone(child, ptrace(PTRACE_SETREGS, child, 0, &done), "a refusal");
        go_on(child, 0);
        done_or_gone(child, ptrace(PTRACE_GETREGS, child, 0, &done), "an answer");
        if (error != 0) {
            done.rax = refused_answer(&begun, error, heap);
            done_or_gone(child, ptrace(PTRACE_SETREGS, child, 0, &done), "a refusal");
        }
        heap = begun.orig_rax == SYS_brk ? done.rax : heap;
        snprintf(answer, sizeof answer, "%lld", (long long)done.rax);
        write_down(child, &begun, answer);
    }
}

/* Two numbers, or a text and a number, with a colon between them. */
static void read_pair(char *word, const char **path, long *first, long *second)
{
    char *colon = strrchr(word, ':');
    if (colon == NULL)
        exit(FAILED);
    *colon = 0, *second = strtol(colon + 1, NULL, 10);
    if (path != NULL)
        *path = word;
    else
        *first = strtol(word, NULL, 10);
}

int main(int count, char **words)
{
    int at = 2;
    for (; at + 1 < count && words[at][0] == '-' && refusal_count < MOST; at += 2) {
        struct refusal *one = &refusals[refusal_count];
        if (words[at][1] == 's')
            read_pair(words[at + 1], NULL, &signal_at, &signal_number);
        else
            read_pair(words[at + 1], words[at][1] == 'p' ? &one->path : NULL, &one->count, &one->error), refusal_count++;
    }
    if (at >= count || (list = fopen(words[1], "we")) == NULL)
        return fputs("traced: traced LIST [-r COUNT:ERROR | -p PATH:ERROR | -s COUNT:SIGNAL].. PROGRAM WORD..\n", stderr), FAILED;
    pid_t child = fork();
    if (child < 0)
        fail("fork");
    if (child == 0) {
        if (ptrace(PTRACE_TRACEME, 0, 0, 0) == 0 && raise(SIGSTOP) == 0)
            execv(words[at], words + at);
        _exit(FAILED);
    }
    wait_for(child);
    if (ptrace(PTRACE_SETOPTIONS, child, 0, PTRACE_O_TRACESYSGOOD | PTRACE_O_TRACEEXEC | PTRACE_O_EXITKILL) < 0 || ptrace(PTRACE_CONT, child, 0, 0) < 0)
        fail("ptrace");
    wait_for(child);
    pass_loader(child);
    follow(child);
}
