/* Moves bytes for code that has LLVM's sanitizer of addresses in it, in place of the `__asan_memmove` of gcc's library, which goes byte by byte:
 * the code that was proved has no other way to copy, and with that one it copied for half of the time. Where a byte isn't to be touched that one
 * is called, which tells it. */
#define _GNU_SOURCE
#include <dlfcn.h>
#include <sanitizer/asan_interface.h>
#include <stdlib.h>

typedef void *mover(void *to, const void *from, size_t count);

/* A function of a library that is loaded, or of any. */
static mover *found(void *library, const char *name)
{
    mover *it;
    *(void **)&it = dlsym(library, name);
    if (it == NULL)
        abort();
    return it;
}

__attribute__((visibility("hidden"))) void *__asan_memmove(void *to, const void *from, size_t count)
{
    static mover *move, *tell;
    if (move == NULL) {
        tell = found(RTLD_DEFAULT, "__asan_memmove");
        move = found(dlopen("libc.so.6", RTLD_NOW | RTLD_NOLOAD), "memmove");
    }
    int is_bad = __asan_region_is_poisoned(to, count) != NULL || __asan_region_is_poisoned((void *)from, count) != NULL;
    return (is_bad ? tell : move)(to, from, count);
}
