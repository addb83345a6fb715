// Loaded before the C library: counts the calls of malloc and realloc, and refuses the one of the number REFUSED. If that is 0 it tells
// their count, as the last line on standard error, at _exit: a program with threads ends by that, and runs no destructor.
#define _GNU_SOURCE
#include <errno.h>
#include <stdio.h>
#include <stdlib.h>
#include <sys/syscall.h>
#include <unistd.h>

void *__libc_malloc(size_t size);
void *__libc_realloc(void *old, size_t size);
static long asked, refused;

__attribute__((constructor)) static void start(void) { asked = 0, refused = atol(getenv("REFUSED")); }

void _exit(int status) {
    if (!refused) dprintf(2, "%ld\n", asked);
    for (;;) syscall(SYS_exit_group, status);
}

void *malloc(size_t size) {
    if (++asked == refused) return errno = ENOMEM, NULL;
    return __libc_malloc(size);
}

void *realloc(void *old, size_t size) {
    if (++asked == refused) return errno = ENOMEM, NULL;
    return __libc_realloc(old, size);
}
