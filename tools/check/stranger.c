/* Tries what no run of pacboard does, and tells on standard output what it could do, a line each: what bin/sealed has to keep a program from.
 *
 *   stranger WORD..
 *
 * It is started beside a file `cell.asm` that it is named, a folder `beside` with a file `secret`, and a link `beside-link` to that file.
 */
#define _GNU_SOURCE
#include <dirent.h>
#include <fcntl.h>
#include <signal.h>
#include <stdio.h>
#include <string.h>
#include <sys/mman.h>
#include <sys/ptrace.h>
#include <sys/socket.h>
#include <sys/stat.h>
#include <sys/wait.h>
#include <unistd.h>

/* Tells what could be done. */
static void tell(int could, const char *what)
{
    char line[80];
    int length = could ? snprintf(line, sizeof line, "%s\n", what) : 0;
    if (length > 0 && write(STDOUT_FILENO, line, (size_t)length) < 0)
        _exit(9);
}

/* Whether a file can be opened. */
static int opens(const char *path, int flags)
{
    int file = open(path, flags, 0666);
    return file >= 0 && close(file) == 0;
}

/* Whether the names in a folder can be had. */
static int lists(const char *path)
{
    DIR *folder = opendir(path);
    int is_listed = folder != NULL && readdir(folder) != NULL;
    if (folder != NULL)
        closedir(folder);
    return is_listed;
}

/* Whether another program can be started. */
static int starts(void)
{
    pid_t child = fork();
    int status = 1;
    if (child == 0)
        execl("/bin/true", "true", (char *)NULL), _exit(1);
    return child > 0 && waitpid(child, &status, 0) == child && status == 0;
}

int main(void)
{
    tell(opens("cell.asm", O_RDONLY), "read its source");
    tell(opens("rom", O_WRONLY | O_TRUNC), "empty its output");
    tell(opens("/etc/passwd", O_RDONLY), "read a file of the system");
    tell(opens("beside/secret", O_RDONLY), "read a file beside");
    tell(opens("beside-link", O_RDONLY), "read a file beside by a link");
    tell(opens("beside/secret", O_WRONLY), "write a file beside");
    tell(opens("cell.asm", O_WRONLY), "write its source");
    tell(opens("new", O_WRONLY | O_CREAT), "make a file");
    tell(lists("."), "list its folder");
    tell(rename("cell.asm", "other.asm") == 0 && rename("other.asm", "cell.asm") == 0, "rename its source");
    tell(unlink("spare") == 0, "remove a file");
    tell(mkdir("folder", 0777) == 0, "make a folder");
    tell(symlink("/etc", "link") == 0, "make a link");
    tell(chmod("cell.asm", 0600) == 0, "change rights");
    tell(chdir("beside") == 0 && chdir("..") == 0, "go to another folder");
    int network = socket(AF_INET, SOCK_STREAM, 0);
    tell(network >= 0, "make a socket");
    tell(starts(), "start a program");
    tell(kill(getppid(), 0) == 0, "send a signal");
    tell(ptrace(PTRACE_TRACEME, 0, 0, 0) == 0, "be traced");
    tell(memfd_create("memory", 0) >= 0, "make a file in memory");
    tell(fcntl(9, F_GETFD) >= 0, "use an open file that it was handed");
    return 0;
}
