/* Stands before the C library's memory, and refuses one growth: the one whose number REFUSED names, counted from 1. How many were asked
   for is written to the file that COUNTED names, where there is one. */
#include <errno.h>
#include <fcntl.h>
#include <stdio.h>
#include <stdlib.h>
#include <unistd.h>

void *__libc_malloc(size_t size);
void *__libc_realloc(void *old, size_t size);

static unsigned long asked, refused;

__attribute__((constructor)) static void begin(void) {
    const char *number = getenv("REFUSED");
    refused = number ? strtoul(number, NULL, 10) : 0;
    asked = 0;
}

__attribute__((destructor)) static void end(void) {
    const char *name = getenv("COUNTED");
    char text[32];
    int file = name ? open(name, O_WRONLY | O_CREAT | O_TRUNC, 0600) : -1;
    if (file >= 0) {
        int length = snprintf(text, sizeof text, "%lu", asked);
        if (write(file, text, (size_t)length) != length) _exit(99);
        close(file);
    }
}

static int is_refused(void) {
    if (++asked != refused) return 0;
    errno = ENOMEM;
    return 1;
}

void *malloc(size_t size) { return is_refused() ? NULL : __libc_malloc(size); }

void *realloc(void *old, size_t size) { return is_refused() ? NULL : __libc_realloc(old, size); }
