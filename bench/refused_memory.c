// Preloaded into a program, refuses one of its requests for memory, or that one and all after it.
// Requests are counted from 1, from the start of main on. The environment says what is wanted:
// REFUSED_REQUEST is the number of the request (none: no request is refused), REFUSED_ONWARDS=1
// refuses the later ones too, and COUNT_FILE names a file for the number of requests made.
#define _GNU_SOURCE
#include <errno.h>
#include <stdio.h>
#include <stdlib.h>

extern void *__libc_malloc(size_t);
extern void *__libc_calloc(size_t, size_t);
extern void *__libc_realloc(void *, size_t);
extern void *__libc_memalign(size_t, size_t);

static int started, onwards;
static unsigned long made, refused;

__attribute__((constructor)) static void start(void) {
    const char *number = getenv("REFUSED_REQUEST");
    refused = number ? strtoul(number, NULL, 10) : 0;
    onwards = getenv("REFUSED_ONWARDS") != NULL;
    started = 1;
}

__attribute__((destructor)) static void stop(void) {
    const char *name = getenv("COUNT_FILE");
    started = 0;
    FILE *file = name ? fopen(name, "w") : NULL;
    if (file) {
        fprintf(file, "%lu\n", made);
        fclose(file);
    }
}

static int is_refused(void) {
    if (!started)
        return 0;
    made++;
    if (!refused || made < refused || (made > refused && !onwards))
        return 0;
    errno = ENOMEM;
    return 1;
}

void *malloc(size_t size) { return is_refused() ? NULL : __libc_malloc(size); }

void *calloc(size_t count, size_t size) { return is_refused() ? NULL : __libc_calloc(count, size); }

void *realloc(void *old, size_t size) { return is_refused() ? NULL : __libc_realloc(old, size); }

void *aligned_alloc(size_t align, size_t size) {
    return is_refused() ? NULL : __libc_memalign(align, size);
}

void *memalign(size_t align, size_t size) {
    return is_refused() ? NULL : __libc_memalign(align, size);
}

int posix_memalign(void **place, size_t align, size_t size) {
    if (is_refused())
        return ENOMEM;
    *place = __libc_memalign(align, size);
    return *place ? 0 : ENOMEM;
}
