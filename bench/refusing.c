/* Loaded before the C library (LD_PRELOAD): the growth of memory whose number REFUSE names, counted from 1, is refused, and
   the others are not. At the program's end the file that REFUSED names is made where one was. */
#define _GNU_SOURCE
#include <dlfcn.h>
#include <errno.h>
#include <fcntl.h>
#include <stdlib.h>
#include <unistd.h>

static unsigned long asked;
static int refused;

static int is_refused(void) {
    const char *number = getenv("REFUSE");
    if (!number || ++asked != strtoul(number, 0, 10))
        return 0;
    refused = 1;
    errno = ENOMEM;
    return 1;
}

void *malloc(size_t size) {
    static void *(*next)(size_t);
    if (!next)
        next = (void *(*)(size_t))dlsym(RTLD_NEXT, "malloc");
    return is_refused() ? 0 : next(size);
}

void *realloc(void *place, size_t size) {
    static void *(*next)(void *, size_t);
    if (!next)
        next = (void *(*)(void *, size_t))dlsym(RTLD_NEXT, "realloc");
    return is_refused() ? 0 : next(place, size);
}

__attribute__((destructor)) static void tell(void) {
    const char *file = getenv("REFUSED");
    if (refused && file)
        close(open(file, O_CREAT | O_WRONLY, 0600));
}
