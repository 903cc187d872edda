/* Runs a program with a limit of the system that is set at its first instruction, once the dynamic loader has done its work.
 *
 *   limited RESOURCE:BYTES PROGRAM WORD..
 *
 * RESOURCE is as (address space), data, stack, nofile, fsize or nproc; of as and data BYTES are what the program may have beyond what it has at its first
 * instruction. The exit status is the program's, or 128 and the signal that ended it; 125 where it can't be traced.
 */
#define _GNU_SOURCE
#include <elf.h>
#include <errno.h>
#include <signal.h>
#include <stdint.h>
#include <stdio.h>
#include <stdlib.h>
#include <string.h>
#include <sys/ptrace.h>
#include <sys/resource.h>
#include <sys/user.h>
#include <sys/wait.h>
#include <unistd.h>

enum { FAILED = 125 };

static const struct {
    const char *name;
    int resource;
    const char *held; /* the line of /proc/PID/status that says how much the program has */
} resources[] = {
    {"as", RLIMIT_AS, "VmSize:"}, {"data", RLIMIT_DATA, "VmData:"}, {"stack", RLIMIT_STACK, NULL}, {"nofile", RLIMIT_NOFILE, NULL}, {"fsize", RLIMIT_FSIZE, NULL},
    {"nproc", RLIMIT_NPROC, NULL},
};

static void fail(const char *what)
{
    fprintf(stderr, "limited: %s: %s\n", what, strerror(errno));
    exit(FAILED);
}

/* Waits for the program to stop: the signal. It ends with it, where the program does. */
static int wait_for(pid_t child)
{
    int status;
    if (waitpid(child, &status, 0) < 0)
        fail("the program is gone");
    if (WIFSTOPPED(status))
        return WSTOPSIG(status);
    exit(WIFEXITED(status) ? WEXITSTATUS(status) : 128 + WTERMSIG(status));
}

/* Where the program's own code begins. */
static uint64_t entry_of(pid_t child)
{
    char name[64];
    Elf64_auxv_t one;
    snprintf(name, sizeof name, "/proc/%d/auxv", (int)child);
    FILE *file = fopen(name, "rb");
    while (file != NULL && fread(&one, sizeof one, 1, file) == 1)
        if (one.a_type == AT_ENTRY)
            return fclose(file), one.a_un.a_val;
    fail(name);
    return 0;
}

/* Lets the dynamic loader work, up to the program's first instruction. */
static void pass_loader(pid_t child)
{
    uint64_t entry = entry_of(child);
    struct user_regs_struct regs;
    errno = 0;
    long code = ptrace(PTRACE_PEEKTEXT, child, entry, 0);
    if (errno != 0 || ptrace(PTRACE_POKETEXT, child, entry, (code & ~0xFFL) | 0xCC) < 0 || ptrace(PTRACE_CONT, child, 0, 0) < 0)
        fail("its first instruction");
    if (wait_for(child) != SIGTRAP || ptrace(PTRACE_GETREGS, child, 0, &regs) < 0)
        fail("its first instruction");
    regs.rip = entry;
    if (ptrace(PTRACE_POKETEXT, child, entry, code) < 0 || ptrace(PTRACE_SETREGS, child, 0, &regs) < 0)
        fail("its first instruction");
}

/* How many bytes of a kind the program has. */
static rlim_t held(pid_t child, const char *kind)
{
    char name[64], line[256];
    snprintf(name, sizeof name, "/proc/%d/status", (int)child);
    FILE *file = fopen(name, "r");
    while (file != NULL && fgets(line, sizeof line, file) != NULL)
        if (strncmp(line, kind, strlen(kind)) == 0)
            return fclose(file), strtoull(line + strlen(kind), NULL, 10) * 1024;
    fail(name);
    return 0;
}

/* Sets the limit that a word names. */
static void set_limit(pid_t child, const char *word)
{
    for (size_t at = 0; at < sizeof resources / sizeof *resources; at++) {
        size_t length = strlen(resources[at].name);
        if (strncmp(word, resources[at].name, length) != 0 || word[length] != ':')
            continue;
        rlim_t bytes = strtoull(word + length + 1, NULL, 10) + (resources[at].held ? held(child, resources[at].held) : 0);
        struct rlimit limit = {bytes, bytes};
        if (prlimit(child, resources[at].resource, &limit, NULL) < 0)
            fail("prlimit");
        return;
    }
    errno = EINVAL, fail(word);
}

int main(int count, char **words)
{
    if (count < 3)
        return fputs("limited: limited RESOURCE:BYTES PROGRAM WORD..\n", stderr), FAILED;
    pid_t child = fork();
    if (child < 0)
        fail("fork");
    if (child == 0) {
        if (ptrace(PTRACE_TRACEME, 0, 0, 0) == 0 && raise(SIGSTOP) == 0)
            execv(words[2], words + 2);
        _exit(FAILED);
    }
    wait_for(child);
    if (ptrace(PTRACE_SETOPTIONS, child, 0, PTRACE_O_TRACEEXEC | PTRACE_O_EXITKILL) < 0 || ptrace(PTRACE_CONT, child, 0, 0) < 0)
        fail("ptrace");
    wait_for(child);
    pass_loader(child);
    set_limit(child, words[1]);
    if (ptrace(PTRACE_DETACH, child, 0, 0) < 0)
        fail("ptrace");
    wait_for(child);
}
