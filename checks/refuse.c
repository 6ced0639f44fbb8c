// Refuses one allocation of the program that it is preloaded into: the one whose number stands in REFUSE, counted from 1. It then
// makes the file that REFUSED names. The program's allocations are malloc and realloc alone.
#include <errno.h>
#include <fcntl.h>
#include <stddef.h>
#include <stdlib.h>
#include <unistd.h>

extern void *__libc_malloc(size_t);
extern void *__libc_realloc(void *, size_t);

static unsigned long asked;

static int refused(void) {
    const char *number = getenv("REFUSE");
    if (number == NULL || ++asked != strtoul(number, NULL, 10))
        return 0;
    const char *name = getenv("REFUSED");
    if (name != NULL)
        close(open(name, O_CREAT | O_WRONLY, 0600));
    errno = ENOMEM;
    return 1;
}

void *malloc(size_t n) {
    return refused() ? NULL : __libc_malloc(n);
}

void *realloc(void *p, size_t n) {
    return refused() ? NULL : __libc_realloc(p, n);
}
