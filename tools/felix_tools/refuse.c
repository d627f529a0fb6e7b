/* Loaded before a program, this refuses one growth of its memory, and counts them all.

   FELIX_REFUSE_AT=N        the Nth call that asks for memory gets none; with 0, or without it, each call gets what it asks for
   FELIX_REFUSE_COUNT=PATH  at the end the number of calls that asked for memory is written to this file

   Calls are counted from the time at which this is loaded, so those of the loader aren't among them. */
#include <errno.h>
#include <fcntl.h>
#include <stddef.h>
#include <stdio.h>
#include <stdlib.h>
#include <unistd.h>

void *__libc_malloc(size_t size);
void *__libc_calloc(size_t count, size_t size);
void *__libc_realloc(void *old, size_t size);

static int is_counting = 0;
static long refused = 0;
static long calls = 0;

__attribute__((constructor)) static void begin(void) {
    const char *at = getenv("FELIX_REFUSE_AT");
    refused = at ? atol(at) : 0;
    is_counting = 1;
}

static int is_refused(void) {
    if (!is_counting || ++calls != refused)
        return 0;
    errno = ENOMEM;
    return 1;
}

void *malloc(size_t size) {
    return is_refused() ? NULL : __libc_malloc(size);
}

void *calloc(size_t count, size_t size) {
    return is_refused() ? NULL : __libc_calloc(count, size);
}

void *realloc(void *old, size_t size) {
    return is_refused() ? NULL : __libc_realloc(old, size);
}

__attribute__((destructor)) static void end(void) {
    const char *path = getenv("FELIX_REFUSE_COUNT");
    char text[24];
    int file, length;
    is_counting = 0;
    if (!path || (file = open(path, O_WRONLY | O_CREAT | O_TRUNC, 0600)) < 0)
        return;
    length = snprintf(text, sizeof text, "%ld\n", calls);
    if (write(file, text, (size_t)length) < 0)
        unlink(path);
    close(file);
}
